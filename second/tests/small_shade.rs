//! The paper's small shade, its four models and its six lines: by this program, and by the calls of the archive.

use second::paper::edits::{edit, Answer, Edit, Edited};
use second::paper::expression::Expression;
use second::paper::grammar::Grammar;
use second::paper::judgement::{check, check_counting, Verdict};
use second::paper::program::{printed, Files};
use second::paper::tally::fresh;
use second::paper::{numbers, occurrences, schema_file, table, tree};
use shrikemuff::raw as library;

const SCHEMA: [u32; 29] = [4, 0, 2, 5, 0, 4, 6, 3, 8, 1, 0, 0, 0, 2, 2, 3, 7, 1, 1, 1, 0, 1, 0, 0, 1, 2, 2, 0, 99];
const DOCUMENT: [u32; 15] = [1, 4, 61, 9, 12, 165, 17, 243, 2, 2, 25, 20, 165, 2, 2];

fn schema_file_bytes() -> Vec<u8> {
    numbers::file_of(&SCHEMA[..28])
}

fn grammar() -> Grammar {
    schema_file::read(&schema_file_bytes()).expect("the small shade's schema")
}

/// The archive's number for a schema file, and its table.
fn translated(file: &[u8]) -> (u32, Vec<u64>) {
    let mut words = vec![7; 6_675];
    let number = unsafe { library::shrike_translate(file.as_ptr(), file.len(), words.as_mut_ptr(), words.len()) };
    (number, words)
}

/// The verdict on the document, which is this program's and the archive's.
fn verdict(used: u64) -> Verdict {
    let (_, table) = translated(&schema_file_bytes());
    let mut counts = [-5; 48];
    let (judged, after) = check_counting(Some(&grammar()), &DOCUMENT, used, &counts);
    let said = unsafe { library::shrike_check(table.as_ptr(), table.len(), DOCUMENT.as_ptr(), DOCUMENT.len(), used, counts.as_mut_ptr()) };
    assert_eq!((judged, after), (Verdict { number: said.number, place: said.place }, counts));
    judged
}

/// Number, place and used length of an edit of the document, in a buffer of 40 places; and the buffer after it.
fn answer(operation: u32, asked: u64, piece: &[u32]) -> ((u32, u32, u64), Vec<u32>) {
    let Edited { answer, doc, .. } = edited(operation, asked, piece, 30);
    ((answer.number, answer.place, answer.used), doc)
}

/// The document in a buffer of 40 places.
fn lent() -> Vec<u32> {
    let mut buffer = DOCUMENT.to_vec();
    buffer.resize(40, 7);
    buffer
}

/// What an edit of the document leaves, in buffers of 40 places and of `back_room`. It is this program's and the archive's.
fn edited(operation: u32, place: u64, piece: &[u32], back_room: usize) -> Edited {
    edited_again(&lent(), 15, &Edit { operation, place, piece: piece.to_vec() }, back_room)
}

/// The same of any document of the small shade.
fn edited_again(buffer: &[u32], used_before: u64, asked: &Edit, back_room: usize) -> Edited {
    let old_back = vec![8; back_room];
    let mut counts = fresh(&tree::document(buffer, used_before).expect("a document"), &grammar());
    let expected = edit(Some(&grammar()), buffer, used_before, asked, &old_back, &counts);
    let Answer { number, place, used, change, children } = expected.answer;
    assert_eq!(i64::from(change), used as i64 - used_before as i64);
    let (_, table) = translated(&schema_file_bytes());
    let (mut doc, mut back) = (buffer.to_vec(), old_back.clone());
    let said = unsafe {
        library::shrike_edit(
            table.as_ptr(),
            table.len(),
            doc.as_mut_ptr(),
            doc.len(),
            used_before,
            asked.operation,
            asked.place,
            asked.piece.as_ptr(),
            asked.piece.len(),
            back.as_mut_ptr(),
            back.len(),
            counts.as_mut_ptr(),
        )
    };
    assert_eq!((said.number, said.place, said.used, said.change, said.children), (number, place, used, change, children));
    assert_eq!((&doc, &back, counts), (&expected.doc, &expected.back, expected.counts));
    assert_eq!(counts, fresh(&tree::document(&doc, used).expect("a document"), &grammar()), "true counts stay true");
    if number != 0 {
        assert_eq!((&doc[..], back, children), (buffer, old_back, 0), "a refusal changes nothing and has looked at nothing");
    }
    expected
}

#[test]
fn checks() {
    assert_eq!(verdict(15), Verdict { number: 0, place: 0 });
    assert_eq!(verdict(14), Verdict { number: 4, place: 0 });
    assert_eq!(verdict(16), Verdict { number: 4, place: 0 });
    assert_eq!(check(None, &DOCUMENT, 15), Verdict { number: 13, place: 0 });
}

#[test]
fn marked_cases() {
    assert_eq!(answer(2, 3, &[]).0, (9, 3, 15));
    assert_eq!(answer(2, 10, &[]).0, (0, 0, 11));
    assert_eq!(answer(2, 7, &[]).0, (0, 0, 14));
    assert_eq!(answer(1, 10, &[9, 12, 165, 2]).0, (11, 12, 15));
    assert_eq!(answer(1, 10, &[9, 12, 173, 2]).0, (0, 0, 19));
    assert_eq!(answer(1, 3, &[25, 20, 165, 2]).0, (9, 3, 15));
    assert_eq!(answer(1, 10, &[25, 20, 165, 2]).0, (0, 0, 19));
    assert_eq!(answer(3, 3, &[9, 12, 173, 2]).0, (12, 9, 15));
    assert_eq!(answer(5, 3, &[12]).0, (8, 3, 15));
}

#[test]
fn other_cases() {
    for place in [0, 1, 15, 16, 1 << 32, u64::MAX] {
        assert_eq!(answer(1, place, &[25, 20, 165, 2]).0, (6, 0, 15));
    }
    assert_eq!(answer(1, 14, &[25, 20, 165, 2]).0, (0, 0, 19));
    assert_eq!(answer(3, 0, &[11]).0, (6, 0, 15));
    assert_eq!(answer(4, 0, &[4, 69]).0, (0, 0, 15));
    assert_eq!(answer(4, 0, &[4, 69, 69]).0, (8, 0, 15));
    assert_eq!(answer(5, 0, &[12]).0, (6, 0, 15));
    assert_eq!(answer(0, 99, &[]).0, (6, 0, 15));
}

/// A row has no text or one, and no child.
#[test]
fn rows() {
    assert_eq!(answer(2, 7, &[]).1[..15], [1, 4, 61, 9, 12, 165, 17, 2, 2, 25, 20, 165, 2, 2, 0]);
    assert_eq!(answer(1, 9, &[17, 2]).0, (0, 0, 17));
    assert_eq!(answer(1, 9, &[17, 243, 2]).0, (0, 0, 18));
    assert_eq!(answer(1, 9, &[17, 243, 243, 2]).0, (9, 11, 15));
    assert_eq!(answer(1, 9, &[17, 25, 20, 165, 2, 2]).0, (9, 10, 15));
    assert_eq!(answer(1, 7, &[251]).0, (9, 8, 15));
    assert_eq!(answer(1, 8, &[251]).0, (9, 8, 15));
    assert_eq!(answer(3, 7, &[25, 20, 165, 2]).0, (9, 7, 15));
    assert_eq!(answer(1, 13, &[243]).0, (9, 13, 15));
}

/// Where content stops: at a child, at a text, at the end token; not the start, and not by place before another element's fault.
#[test]
fn stops() {
    assert_eq!(answer(1, 14, &[9, 12, 173, 2]).0, (9, 14, 15));
    assert_eq!(answer(1, 10, &[243]).0, (9, 10, 15));
    assert_eq!(answer(3, 3, &[25, 20, 165, 2]).0, (9, 3, 15));
    assert_eq!(answer(3, 0, &[1, 4, 61, 2]).0, (9, 3, 15));
    assert_eq!(answer(3, 0, &[1, 4, 61, 9, 12, 165, 9, 2, 2, 81, 2, 2]).0, (9, 9, 15));
}

/// The children looked at: the touched element's in the edited document, and those of every element in the piece.
#[test]
fn children() {
    for (operation, place, piece, children) in [
        (2, 10, &[][..], 1),
        (2, 7, &[], 0),
        (1, 10, &[9, 12, 173, 2], 3),
        (1, 10, &[25, 20, 165, 2], 3),
        (1, 9, &[17, 243, 2], 2 + 1),
        (1, 3, &[9, 12, 173, 17, 243, 2, 17, 2, 2], 3 + 2 + 1),
        (3, 7, &[251], 1),
        (3, 3, &[9, 12, 165, 17, 2, 17, 2, 17, 3, 2, 2], 2 + 3 + 1),
        (3, 0, &[1, 4, 61, 9, 12, 165, 17, 3, 2, 2, 9, 12, 173, 2, 2], 2 + 1 + 1),
        (4, 0, &[4, 69], 2),
        (4, 10, &[20, 165], 0),
    ] {
        let answer = edited(operation, place, piece, 30).answer;
        assert_eq!((answer.number, answer.children), (0, children), "operation {operation} at {place}");
    }
}

/// What takes each edit back stands at the front of the second buffer, and does so; a set is taken back by what it found.
#[test]
fn steps_back() {
    for (operation, place, piece, back) in [
        (1, 10, &[9, 12, 173, 2][..], &[2, 10, 0][..]),
        (1, 14, &[25, 20, 165, 2], &[2, 14, 0]),
        (2, 10, &[], &[1, 10, 4, 25, 20, 165, 2]),
        (2, 7, &[], &[1, 7, 1, 243]),
        (3, 7, &[251], &[3, 7, 1, 243]),
        (3, 3, &[9, 12, 165, 2], &[3, 3, 7, 9, 12, 165, 17, 243, 2, 2]),
        (3, 0, &[1, 4, 61, 9, 12, 173, 2, 2], &[3, 0, 15, 1, 4, 61, 9, 12, 165, 17, 243, 2, 2, 25, 20, 165, 2, 2]),
        (4, 0, &[4, 69], &[4, 0, 2, 4, 61]),
        (4, 0, &[4, 61], &[4, 0, 2, 4, 61]),
    ] {
        let after = edited(operation, place, piece, back.len() + 2);
        assert_eq!(after.answer.number, 0);
        assert_eq!(after.back, [back, &[8, 8]].concat());
        assert_eq!(edited(operation, place, piece, back.len()).back, back);
        for short in 0..back.len() {
            assert_eq!(edited(operation, place, piece, short).answer.number, 5);
        }
        let undone = edited_again(&after.doc, after.answer.used, &Edit::at_front(back), 30);
        assert_eq!((undone.answer.number, undone.answer.used), (0, 15));
        assert_eq!(undone.doc[..15], DOCUMENT);
        let again = edited_again(&undone.doc, 15, &Edit::at_front(&undone.back), 30);
        assert_eq!((again.answer, again.doc), (after.answer, after.doc));
    }
    // Room for the inverse comes before judgement and after all else.
    assert_eq!(edited(2, 3, &[], 9).answer.number, 5);
    assert_eq!((edited(2, 3, &[], 10).answer.number, edited(2, 3, &[], 10).answer.place), (9, 3));
    assert_eq!(edited(2, 1, &[], 0).answer.number, 6);
    assert_eq!(edited(4, 3, &[4, 61], 3).answer.number, 5);
    assert_eq!(edited(4, 3, &[4, 61], 4).answer.number, 8);
}

#[test]
fn places_after_a_removal() {
    let after = answer(2, 10, &[]).1;
    assert_eq!(after[..11], [1, 4, 61, 9, 12, 165, 17, 243, 2, 2, 2]);
    assert_eq!(after[11..15], [0, 0, 0, 0]);
    assert!(after[15..].iter().all(|token| *token == 7));
}

/// The number for a schema of the small shade's four elements whose root has a model: this program's and the archive's.
fn number_of_model(symbols: &[u32]) -> u32 {
    let mut numbers = vec![4, 0, 2, symbols.len() as u32];
    numbers.extend(symbols);
    numbers.extend([0, 0, 0, 0, 0, 0, 0]);
    let file = numbers::file_of(&numbers);
    let number = schema_file::read(&file).err().unwrap_or(0);
    assert_eq!(translated(&file).0, number);
    number
}

#[test]
fn four_models() {
    let (a, b, c) = (6, 7, 8);
    let ambiguous = |symbols: &[u32]| occurrences::of(&Expression::of_symbols(symbols).expect("a model")).ambiguous;
    let row = |names: usize| {
        let mut symbols = vec![0; names - 1];
        symbols.resize(2 * names - 1, a);
        symbols
    };
    for (symbols, number) in [(vec![0, 2, a, a], 3), (vec![1, 0, a, b, 0, a, c], 3), (vec![3, 0, 3, a, 3, b], 0), (row(64), 0)] {
        assert_eq!(ambiguous(&symbols), number == 3);
        assert_eq!(number_of_model(&symbols), number);
    }
    assert_eq!(number_of_model(&row(65)), 2);
}

#[test]
fn table_of_the_shade() {
    let words = table::of(&grammar());
    assert!(table::is_proper(&words));
    assert_eq!(words[..12], [4, 0, 2, 1, 1, 0, 0, 0, 2, 0, 1, 3]);
    assert_eq!(words[12..14], [1, 3]);
    assert_eq!(words[2 + 74..2 + 76], [3, 2]);
    assert_eq!(words.len(), 6_675);
    assert_eq!(translated(&schema_file_bytes()), (0, words));
}

#[test]
fn six_lines() {
    let edits = [2, 3, 0, 1, 10, 4, 9, 12, 173, 2, 3, 3, 4, 9, 12, 173, 2, 2, 14, 0, 2, 3, 0];
    let files = |schema: Option<Vec<u8>>, doc: &[u32], edits: &[u32]| Files {
        schema,
        doc: Some(numbers::file_of(doc)),
        edits: Some(numbers::file_of(edits)),
    };
    let good = files(Some(schema_file_bytes()), &DOCUMENT, &edits);
    assert_eq!(printed(&good).text, "0 0 0 15\n1 9 3 15\n2 0 0 19\n3 11 9 19\n4 0 0 15\n5 0 0 8\n");
    assert_eq!(printed(&files(None, &DOCUMENT, &edits)).text, "stop 5\n");
    assert_eq!(printed(&files(Some(vec![]), &DOCUMENT, &edits)).text, "stop 1\n");
    assert_eq!(printed(&files(Some(schema_file_bytes()), &[], &edits)).text, "0 4 0 0\n");
    assert_eq!(printed(&files(Some(schema_file_bytes()), &DOCUMENT, &edits[..5])).text, "0 0 0 15\n1 9 3 15\nstop 1\n");
    assert_eq!(printed(&files(Some(schema_file_bytes()), &DOCUMENT, &[2, 3, 8_193])).text, "0 0 0 15\nstop 5\n");
    assert_eq!(printed(&files(Some(numbers::file_of(&SCHEMA)), &DOCUMENT, &edits)).text, "stop 2\n");
}
