//! Groups of edits (item 9): the small shade's panel renamed with its use, and what a group is refused for; by this program and by the archive.

use second::paper::edits::Edit;
use second::paper::grammar::Grammar;
use second::paper::groups::{group, Grouped, Worked};
use second::paper::lists::{list, numbers_of};
use second::paper::tally::MIDDLE;
use second::paper::{numbers, schema_file, table};
use shrikemuff::raw as library;

const SCHEMA: [u32; 28] = [4, 0, 2, 5, 0, 4, 6, 3, 8, 1, 0, 0, 0, 2, 2, 3, 7, 1, 1, 1, 0, 1, 0, 0, 1, 2, 2, 0];
const DOCUMENT: [u32; 15] = [1, 4, 61, 9, 12, 165, 17, 243, 2, 2, 25, 20, 165, 2, 2];
/// The panel 20 becomes 21, and so does its use.
const RENAME: [u32; 10] = [4, 3, 2, 12, 173, 4, 10, 2, 20, 173];

fn grammar() -> Grammar {
    schema_file::read(&numbers::file_of(&SCHEMA)).expect("the small shade's schema")
}

/// The document in a buffer of this many places.
fn lent(room: usize) -> Vec<u32> {
    let mut buffer = DOCUMENT.to_vec();
    buffer.resize(room, 7);
    buffer
}

/// What a group leaves, of buffers of so many places: this program's and the archive's.
fn worked(numbers: &[u32], used: u64, room: usize, second_room: usize) -> Worked {
    let (mut doc, mut second) = (lent(room), vec![8; second_room]);
    let expected = group(Some(&grammar()), &doc, used, numbers, &second);
    let words = table::of(&grammar());
    let said = unsafe {
        library::shrike_group(
            words.as_ptr(),
            words.len(),
            doc.as_mut_ptr(),
            doc.len(),
            used,
            numbers.as_ptr(),
            numbers.len(),
            second.as_mut_ptr(),
            second.len(),
        )
    };
    let Grouped { number, place, used, change, which } = expected.grouped;
    assert_eq!(said, library::Grouped { number, place, used, change, which });
    assert_eq!((&doc, &second), (&expected.doc, &expected.second));
    if number != 0 {
        assert_eq!(doc, lent(room), "or nothing in the first buffer changes");
    }
    expected
}

/// Number, place and which edit of a group that is refused in buffers of 40 places.
fn refused(numbers: &[u32]) -> (u32, u32, u32) {
    let Grouped { number, place, used, change, which } = worked(numbers, 15, 40, 40).grouped;
    assert_eq!((used, change), (15, 0));
    (number, place, which)
}

#[test]
fn a_panel_is_renamed() {
    let after = worked(&RENAME, 15, 40, 42);
    assert_eq!(after.grouped, Grouped { number: 0, place: 0, used: 15, change: 0, which: 0 });
    let renamed = [1, 4, 61, 9, 12, 173, 17, 243, 2, 2, 25, 20, 173, 2, 2];
    assert_eq!(after.doc, [&renamed[..], &[7; 25]].concat());
    assert_eq!(after.second, [&renamed[..], &[8; 27]].concat());
    // Each step alone is refused, as a single call and as a group.
    for (step, place) in [(&RENAME[..5], 12), (&RENAME[5..], 12)] {
        assert_eq!(list(Some(&grammar()), &lent(40), 15, step, &MIDDLE).listed.last.number, 12);
        assert_eq!(refused(step), (12, place, 0));
    }
    assert_eq!(worked(&[RENAME[5..].to_vec(), RENAME[..5].to_vec()].concat(), 15, 40, 40).doc, after.doc);
}

/// "The second buffer ends with the last document reached, 0 up to the longest reached (the starting one included), then its old contents".
#[test]
fn the_second_buffer() {
    // 15, 19, 15 and 11 tokens.
    let edits = [1, 10, 4, 25, 20, 165, 2, 2, 10, 0, 2, 10, 0];
    let shorter = [1, 4, 61, 9, 12, 165, 17, 243, 2, 2, 2];
    let after = worked(&edits, 15, 40, 40);
    assert_eq!(after.grouped, Grouped { number: 0, place: 0, used: 11, change: -4, which: 0 });
    assert_eq!(after.doc, [&shorter[..], &[0; 4], &[7; 25]].concat());
    assert_eq!(after.second, [&shorter[..], &[0; 8], &[8; 21]].concat());
    // Refused at the fourth edit: the document before it.
    let more = [&edits[..], &[9, 0, 0]].concat();
    let after = worked(&more, 15, 40, 40);
    assert_eq!(after.grouped, Grouped { number: 6, place: 0, used: 15, change: 0, which: 4 });
    assert_eq!(after.second, [&shorter[..], &[0; 8], &[8; 21]].concat());
    // A first edit that is refused has begun.
    assert_eq!(worked(&[9, 0, 0], 15, 40, 40).second, [&DOCUMENT[..], &[8; 25]].concat());
    // Refused at the end.
    let after = worked(&[2, 3, 0], 15, 15, 15);
    assert_eq!((after.grouped.number, after.grouped.place, after.grouped.which), (9, 3, 0));
    assert_eq!(after.second, [1, 4, 61, 25, 20, 165, 2, 2, 0, 0, 0, 0, 0, 0, 0]);
}

#[test]
fn refusals_in_order() {
    let untouched = |after: Worked, number: u32| {
        assert_eq!((after.grouped.number, after.grouped.place, after.grouped.which, after.grouped.change), (number, 0, 0, 0));
        assert!(after.second.iter().all(|token| *token == 8));
    };
    untouched(group(None, &lent(40), 99, &[], &[8; 3]), 13);
    untouched(worked(&[4, 0, 2, 4, 69].repeat(257), 99, 40, 3), 4);
    assert_eq!(worked(&[], 99, 40, 3).grouped.used, 99);
    untouched(worked(&[], 15, 40, 3), 4);
    untouched(worked(&RENAME[..9], 15, 40, 3), 4);
    untouched(worked(&[4, 0, 2, 4, 69].repeat(257), 15, 40, 3), 5);
    untouched(worked(&RENAME, 15, 40, 39), 5);
    untouched(worked(&[9, 0, 0], 15, 40, 39), 5);
    assert_eq!(worked(&RENAME, 15, 40, 40).grouped.number, 0);
    assert_eq!(worked(&[4, 0, 2, 4, 69].repeat(256), 15, 15, 15).grouped.number, 0);
}

/// Form, place and size of each edit in turn; its judgement is not asked.
#[test]
fn each_edit_is_tested() {
    assert_eq!(refused(&[&RENAME[..5], &[6, 3, 0]].concat()), (6, 0, 2));
    assert_eq!(refused(&[&RENAME[..5], &[1, 3, 1, 4]].concat()), (4, 0, 2));
    assert_eq!(refused(&[&RENAME[..5], &[2, 4, 0]].concat()), (6, 0, 2));
    assert_eq!(refused(&[&[2, 10, 0][..], &[2, 10, 0]].concat()), (6, 0, 2), "place 10 is the end of the shorter document");
    let use_ = Edit { operation: 1, place: 10, piece: vec![25, 20, 165, 2] };
    let rows = Edit { operation: 1, place: 9, piece: vec![17, 2] };
    // The size is the first buffer's, also where the second is longer.
    let after = worked(&numbers_of(&[use_.clone(), use_.clone()]), 15, 22, 40);
    assert_eq!((after.grouped.number, after.grouped.which), (5, 2));
    assert_eq!(after.second[19..], [8; 21]);
    assert_eq!(worked(&numbers_of(&[use_.clone(), use_.clone()]), 15, 23, 23).grouped.used, 23);
    // Too long in between does not do, even if the end is short.
    assert_eq!(worked(&numbers_of(&[use_.clone(), use_, rows]), 15, 22, 22).grouped.which, 2);
    // A fault that a later edit mends is none.
    let mends = [2, 3, 0, 1, 3, 4, 9, 12, 165, 2];
    assert_eq!(worked(&mends, 15, 40, 40).grouped, Grouped { number: 0, place: 0, used: 12, change: -3, which: 0 });
}

/// "only the last document is judged, whole": also where nothing was touched.
#[test]
fn the_whole_is_judged() {
    let faulty = [1, 4, 61, 9, 12, 165, 25, 20, 165, 2, 2, 2];
    let after = group(Some(&grammar()), &faulty, 12, &[4, 0, 2, 4, 69], &[8; 12]);
    assert_eq!((after.grouped.number, after.grouped.place, after.grouped.which), (9, 6, 0));
    assert_eq!(after.doc, faulty);
    let root = [1, 4, 61, 9, 12, 165, 2, 2].map(|token| if token == 1 { 9 } else { token });
    assert_eq!(refused(&[&[3, 0, 8][..], &root].concat()), (10, 0, 0));
}
