//! Counts of elements (item 7): the small shade's, moved by edits and lists, at their ends; and the question. By this program and by the
//! archive.

use second::paper::edits::{edit, Edit, LONGEST_BACK};
use second::paper::grammar::Grammar;
use second::paper::judgement::check_counting;
use second::paper::lists::list;
use second::paper::tally::{elements, Tally};
use second::paper::{numbers, schema_file, table};
use shrikemuff::raw as library;

const SCHEMA: [u32; 28] = [4, 0, 2, 5, 0, 4, 6, 3, 8, 1, 0, 0, 0, 2, 2, 3, 7, 1, 1, 1, 0, 1, 0, 0, 1, 2, 2, 0];
const DOCUMENT: [u32; 15] = [1, 4, 61, 9, 12, 165, 17, 243, 2, 2, 25, 20, 165, 2, 2];

fn grammar() -> Grammar {
    schema_file::read(&numbers::file_of(&SCHEMA)).expect("the small shade's schema")
}

fn lent() -> Vec<u32> {
    let mut buffer = DOCUMENT.to_vec();
    buffer.resize(40, 7);
    buffer
}

/// These counts, then zeros.
fn tally(front: &[i32]) -> Tally {
    let mut tally = [0; 48];
    tally[..front.len()].copy_from_slice(front);
    tally
}

/// Number and place of an edit of the small shade with these counts, and the counts after it.
fn edited(operation: u32, place: u64, piece: &[u32], back_room: usize, counts: &Tally) -> (u32, u32, Tally) {
    let asked = Edit { operation, place, piece: piece.to_vec() };
    let expected = edit(Some(&grammar()), &lent(), 15, &asked, &vec![0; back_room], counts);
    let (words, mut doc, mut back, mut after) = (table::of(&grammar()), lent(), vec![0; back_room], *counts);
    let said = unsafe {
        library::shrike_edit(
            words.as_ptr(),
            words.len(),
            doc.as_mut_ptr(),
            doc.len(),
            15,
            operation,
            place,
            piece.as_ptr(),
            piece.len(),
            back.as_mut_ptr(),
            back.len(),
            after.as_mut_ptr(),
        )
    };
    assert_eq!((said.number, said.place), (expected.answer.number, expected.answer.place));
    assert_eq!((&doc, &back, after), (&expected.doc, &expected.back, expected.counts));
    if said.number != 0 {
        assert_eq!((doc, after), (lent(), *counts), "a refused edit leaves the counts as they were");
    }
    (said.number, said.place, after)
}

#[test]
fn written_by_a_valid_check() {
    let any = [-7; 48];
    assert_eq!(check_counting(Some(&grammar()), &DOCUMENT, 15, &any).1, tally(&[1, 1, 1, 1]));
    assert_eq!(check_counting(Some(&grammar()), &DOCUMENT, 14, &any).1, any);
    assert_eq!(check_counting(None, &DOCUMENT, 15, &any).1, any);
    let other = [1, 4, 61, 9, 12, 165, 17, 2, 17, 2, 2, 9, 12, 173, 2, 2];
    assert_eq!(check_counting(Some(&grammar()), &other, 16, &any).1, tally(&[1, 2, 2, 0]));
}

#[test]
fn moved_by_edits() {
    let counts = tally(&[1, 1, 1, 1]);
    let rows = [9, 12, 173, 17, 3, 2, 17, 2, 2];
    for (operation, place, piece, after) in [
        (1, 3, &rows[..], [1, 2, 3, 1]),
        (2, 10, &[], [1, 1, 1, 0]),
        (2, 7, &[], [1, 1, 1, 1]),
        (3, 3, &[9, 12, 165, 2], [1, 1, 0, 1]),
        (3, 3, &[9, 12, 165, 17, 2, 17, 2, 2], [1, 1, 2, 1]),
        (3, 0, &[1, 4, 61, 9, 12, 173, 2, 9, 12, 181, 2, 2], [1, 2, 0, 0]),
        (4, 0, &[4, 69], [1, 1, 1, 1]),
    ] {
        assert_eq!(edited(operation, place, piece, 30, &counts), (0, 0, tally(&after)));
    }
}

/// "any of the 48 counts below 0 or above 8,192 after the edit, directly after 5", before judgement, for set and drop too.
#[test]
fn refused_by_counts() {
    let use_ = [25, 20, 165, 2];
    assert_eq!(edited(1, 10, &use_, 3, &tally(&[1, 1, 1, 8_191])), (0, 0, tally(&[1, 1, 1, 8_192])));
    assert_eq!(edited(1, 10, &use_, 3, &tally(&[1, 1, 1, 8_192])).0, 15);
    assert_eq!(edited(2, 10, &[], 7, &tally(&[1, 1, 1, 1])), (0, 0, tally(&[1, 1, 1, 0])));
    assert_eq!(edited(2, 10, &[], 7, &tally(&[1, 1, 1, 0])).0, 15);
    // A count that was out may come back.
    assert_eq!(edited(1, 10, &use_, 3, &tally(&[1, 1, 1, -1])), (0, 0, tally(&[1, 1, 1, 0])));
    assert_eq!(edited(2, 10, &[], 7, &tally(&[1, 1, 1, 8_193])), (0, 0, tally(&[1, 1, 1, 8_192])));
    for (operation, piece) in [(4, &[4, 69][..]), (5, &[4])] {
        for other in [-1, 8_193, i32::MIN, i32::MAX] {
            for name in [0, 3, 4, 47] {
                let mut counts = tally(&[1, 1, 1, 1]);
                counts[name] = other;
                assert_eq!(edited(operation, 0, piece, 30, &counts).0, 15);
            }
        }
    }
    // No wrapping at the ends of an i32.
    assert_eq!(edited(1, 10, &use_, 3, &tally(&[1, 1, 1, i32::MAX])).0, 15);
    assert_eq!(edited(2, 10, &[], 7, &tally(&[1, 1, 1, i32::MIN])).0, 15);
    // After both 5s and all before them; before judgement.
    let out = tally(&[-1]);
    assert_eq!(edited(2, 3, &[], 9, &out).0, 5);
    assert_eq!(edited(2, 3, &[], 10, &out).0, 15);
    assert_eq!(edited(2, 1, &[], 30, &out).0, 6);
    assert_eq!(edited(1, 10, &[[9, 12, 173].as_slice(), &[17, 2].repeat(20), &[2]].concat(), 30, &out).0, 5);
}

/// A name of E and above is counted nowhere; its count stays, and may be out.
#[test]
fn names_from_e_on() {
    let mut counts = tally(&[1, 1, 1, 1]);
    counts[4] = 8_192;
    let fifth = [33, 2];
    // Element 4 is not declared: 9 at its place, whatever its count.
    assert_eq!(edited(1, 10, &fifth, 3, &counts).0, 9);
    let invalid = [1, 4, 61, 9, 12, 165, 2, 33, 2, 2];
    let asked = Edit { operation: 2, place: 7, piece: vec![] };
    let after = edit(Some(&grammar()), &invalid, 10, &asked, &[0; 30], &counts);
    assert_eq!((after.answer.number, after.counts), (0, counts));
}

#[test]
fn carried_along_by_lists() {
    let numbers = [1, 10, 4, 9, 12, 173, 2, 1, 10, 4, 25, 20, 173, 2, 2, 3, 0];
    let counts = tally(&[1, 1, 1, 1]);
    for (length, number, after) in [(7, 0, [1, 2, 1, 1]), (14, 9, [1, 2, 1, 1])] {
        let ran = list(Some(&grammar()), &lent(), 15, &numbers[..length], &counts);
        assert_eq!((ran.listed.last.number, ran.counts), (number, tally(&after)), "in a list, as the done ones left them");
    }
    let twice = numbers[..7].iter().copied().chain([1, 10, 4, 9, 12, 181, 2]).collect::<Vec<u32>>();
    let ran = list(Some(&grammar()), &lent(), 15, &twice, &tally(&[1, 8_191, 1, 1]));
    assert_eq!((ran.listed.last.number, ran.listed.done, ran.counts), (15, 1, tally(&[1, 8_192, 1, 1])));
    let ran = list(Some(&grammar()), &lent(), 15, &twice[..13], &tally(&[-1]));
    assert_eq!((ran.listed.last.number, ran.counts), (4, tally(&[-1])), "the list's own faults come first");
    assert_eq!(edit(Some(&grammar()), &lent(), 15, &Edit::at_front(&twice), &[0; LONGEST_BACK], &counts).counts, tally(&[1, 2, 1, 1]));
}

/// 13 for the table, then 15 if any of the 48 is out, else the count; 0 for a name of E and above, whatever the array holds there.
#[test]
fn the_question() {
    let words = table::of(&grammar());
    let asked = |words: &[u64], counts: &Tally, name: u32| {
        let said = unsafe { library::shrike_elements(words.as_ptr(), words.len(), counts.as_ptr(), name) };
        let expected = elements(table::grammar_of(words).as_ref(), counts, name);
        assert_eq!((said.number, said.count), expected);
        expected
    };
    let mut counts = tally(&[1, 8_192, 0, 7, 9]);
    for (name, count) in [(0, 1), (1, 8_192), (2, 0), (3, 7), (4, 0), (47, 0), (48, 0), (u32::MAX, 0)] {
        assert_eq!(asked(&words, &counts, name), (0, count));
    }
    for (place, other) in [(0, -1), (47, -1), (4, 8_193), (30, i32::MIN), (31, i32::MAX)] {
        let before = std::mem::replace(&mut counts[place], other);
        assert_eq!(asked(&words, &counts, 1), (15, 0));
        assert_eq!(asked(&words, &counts, 99), (15, 0));
        assert_eq!(asked(&words[1..], &counts, 1), (13, 0));
        counts[place] = before;
    }
}
