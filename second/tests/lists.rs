//! Lists of edits (item 6): the small shade's, their faults, and that each is a run of single calls; by this program and by the archive.

use second::paper::edits::{edit, Answer, Edit, LONGEST_BACK};
use second::paper::grammar::Grammar;
use second::paper::lists::{edits_of, list, numbers_of, Listed, Ran};
use second::paper::tally::{fresh, Tally, MIDDLE};
use second::paper::{numbers, schema_file, table, tree};
use shrikemuff::raw as library;

const SCHEMA: [u32; 28] = [4, 0, 2, 5, 0, 4, 6, 3, 8, 1, 0, 0, 0, 2, 2, 3, 7, 1, 1, 1, 0, 1, 0, 0, 1, 2, 2, 0];
const DOCUMENT: [u32; 15] = [1, 4, 61, 9, 12, 165, 17, 243, 2, 2, 25, 20, 165, 2, 2];
/// The edits of the paper's six lines.
const EDITS: [u32; 23] = [2, 3, 0, 1, 10, 4, 9, 12, 173, 2, 3, 3, 4, 9, 12, 173, 2, 2, 14, 0, 2, 3, 0];

fn grammar() -> Grammar {
    schema_file::read(&numbers::file_of(&SCHEMA)).expect("the small shade's schema")
}

fn lent() -> Vec<u32> {
    let mut buffer = DOCUMENT.to_vec();
    buffer.resize(40, 7);
    buffer
}

fn true_counts(doc: &[u32], used: u64) -> Tally {
    fresh(&tree::document(doc, used).expect("a document"), &grammar())
}

/// What a list leaves: this program's and the archive's.
fn ran(numbers: &[u32]) -> Ran {
    let mut counts = true_counts(&lent(), 15);
    let expected = list(Some(&grammar()), &lent(), 15, numbers, &counts);
    let (table, mut doc) = (table::of(&grammar()), lent());
    let said = unsafe {
        library::shrike_list(
            table.as_ptr(),
            table.len(),
            doc.as_mut_ptr(),
            doc.len(),
            15,
            numbers.as_ptr(),
            numbers.len(),
            counts.as_mut_ptr(),
        )
    };
    let Answer { number, place, used, change, children } = expected.listed.last;
    assert_eq!(said, library::Listed { last: library::Answer { number, place, used, change, children }, done: expected.listed.done });
    assert_eq!((&doc, counts), (&expected.doc, expected.counts));
    assert_eq!(counts, true_counts(&doc, used), "true counts stay true");
    expected
}

/// Number, place, used length and change of the last answer, and the edits done.
fn said(numbers: &[u32]) -> (u32, u32, u64, i32, u32) {
    let Listed { last, done } = ran(numbers).listed;
    (last.number, last.place, last.used, last.change, done)
}

#[test]
fn ends_at_the_first_refusal() {
    // The first of the six lines is refused: nothing is done.
    assert_eq!(said(&EDITS), (9, 3, 15, 0, 0));
    assert_eq!(ran(&EDITS).doc, lent());
    // Without it the next is done and the one after it refused; the last two are not run.
    assert_eq!(said(&EDITS[3..]), (11, 9, 19, 0, 1));
    // Without that one too, three are done: 19, 15 and 8 tokens. The change is that of the last alone.
    let rest = [&EDITS[3..10], &EDITS[17..]].concat();
    assert_eq!(said(&rest), (0, 0, 8, -7, 3));
    let after = ran(&rest).doc;
    assert_eq!(after[..8], [1, 4, 61, 9, 12, 173, 2, 2]);
    assert!(after[8..19].iter().all(|token| *token == 0) && after[19..].iter().all(|token| *token == 7));
}

#[test]
fn faults_of_the_list() {
    let refused = |number| (number, 0, 15, 0, 0);
    assert_eq!(said(&[]), refused(4));
    let set = [4, 0, 2, 4, 69];
    for length in 1..5 {
        assert_eq!(said(&set[..length]), refused(4), "ends inside an edit");
        assert_eq!(said(&[&set[..], &set[..length]].concat()), refused(4), "before any edit is run");
    }
    assert_eq!(said(&[4, 0, 3, 4, 69]), refused(4), "a piece count over what is left");
    assert_eq!(said(&[4, 0, u32::MAX, 4, 69]), refused(4));
    assert_eq!(said(&[9, 9, 9]), refused(4), "before its operation is looked at");
    assert_eq!(said(&set.repeat(256)), (0, 0, 15, 0, 256));
    assert_eq!(said(&set.repeat(257)), refused(5));
    for length in 1..5 {
        assert_eq!(said(&[&set.repeat(256)[..], &set[..length]].concat()), refused(5), "256 whole edits and a broken rest");
    }
    assert_eq!(said(&[&[4, 0, 9, 1][..], &set.repeat(300)].concat()[..9]), refused(4), "the first met from the front");
    assert_eq!(ran(&set.repeat(257)).doc, lent());
    // Before 13 and shape 4, which are answers of the first edit.
    assert_eq!(list(None, &lent(), 15, &set.repeat(257), &MIDDLE).listed.last.number, 5);
    assert_eq!(list(None, &lent(), 99, &set, &MIDDLE).listed.last, Answer { number: 13, place: 0, used: 99, change: 0, children: 0 });
    assert_eq!(
        list(Some(&grammar()), &lent(), 99, &set, &MIDDLE).listed.last,
        Answer { number: 4, place: 0, used: 99, change: 0, children: 0 }
    );
    assert_eq!(list(Some(&grammar()), &lent(), 99, &[], &MIDDLE).listed.last.number, 4);
}

/// "A piece over 8,192 tokens that is all there is its edit's own 4": what was done before it stands.
#[test]
fn a_long_piece() {
    let long = Edit { operation: 4, place: 0, piece: [vec![4], vec![69; 8_192]].concat() };
    let first = Edit { operation: 2, place: 10, piece: vec![] };
    assert_eq!(said(&numbers_of(&[first.clone(), long])), (4, 0, 11, 0, 1));
    // A set of 8,192 tokens has form; there is no room for it.
    let most = Edit { operation: 4, place: 0, piece: [vec![4], vec![69; 8_191]].concat() };
    assert_eq!(said(&numbers_of(&[first, most])), (5, 0, 11, 0, 1));
}

/// A run of single calls gives the same, refused or not.
#[test]
fn single_calls() {
    let edits = edits_of(&[&EDITS[3..10], &EDITS[17..]].concat()).expect("three edits");
    for count in 1..=edits.len() {
        let (mut doc, mut last, mut counts) = (lent(), Answer::refused(0, 0, 15), true_counts(&lent(), 15));
        for asked in &edits[..count] {
            let after = edit(Some(&grammar()), &doc, last.used, asked, &[0; LONGEST_BACK], &counts);
            (doc, last, counts) = (after.doc, after.answer, after.counts);
        }
        assert_eq!(ran(&numbers_of(&edits[..count])), Ran { listed: Listed { last, done: count as u32 }, doc, counts });
    }
}
