//! Fixed attributes (item 8): schema files, tables and documents of one element, by this program and by the archive.

use second::paper::judgement::check;
use second::paper::{numbers, schema_file, table};
use shrikemuff::raw as library;

/// An EMPTY element with these attributes: their count, and for each its numbers.
fn file(attributes: &[u32]) -> Vec<u8> {
    numbers::file_of(&[&[1, 0, 0], attributes].concat())
}

/// The number for a schema file, and its table: this program's and the archive's.
fn translated(file: &[u8]) -> (u32, Vec<u64>) {
    let mut words = vec![7; 6_675];
    let number = unsafe { library::shrike_translate(file.as_ptr(), file.len(), words.as_mut_ptr(), words.len()) };
    match schema_file::read(file) {
        Ok(grammar) => assert_eq!((number, &words), (0, &table::of(&grammar))),
        Err(refused) => assert_eq!((number, &words), (refused, &vec![7; 6_675])),
    }
    (number, words)
}

/// The verdict on a document by a table: this program's and the archive's.
fn verdict(words: &[u64], doc: &[u32]) -> (u32, u32) {
    let judged = check(table::grammar_of(words).as_ref(), doc, doc.len() as u64);
    let mut counts = [0; 48];
    let said =
        unsafe { library::shrike_check(words.as_ptr(), words.len(), doc.as_ptr(), doc.len(), doc.len() as u64, counts.as_mut_ptr()) };
    assert_eq!((said.number, said.place), (judged.number, judged.place));
    (said.number, said.place)
}

/// So many fixed attributes from 0 on, attribute k with the value 10 k.
fn many(count: u32) -> Vec<u32> {
    let mut attributes = vec![count];
    attributes.extend((0..count).flat_map(|k| [k, 0, 2, 10 * k]));
    attributes
}

#[test]
fn schema_files() {
    for (attributes, number) in [
        (&[1, 5, 0, 2, 77][..], 0),
        (&[1, 5, 0, 2, 65_535], 0),
        (&[1, 5, 0, 2, 65_536], 2),
        (&[1, 5, 0, 2], 1),
        (&[1, 5, 0, 3, 0], 2),
        (&[1, 5, 1, 2, 0], 2),
        (&[1, 5, 2, 2, 0], 2),
        (&[1, 5, 3, 2, 0], 2),
        (&[1, 5, 0, 2, 77, 0], 2),
        (&[2, 5, 0, 2, 77, 6, 0, 1], 0),
        (&[2, 5, 0, 2, 77, 5, 0, 1], 2),
    ] {
        assert_eq!(translated(&file(attributes)).0, number, "{attributes:?}");
    }
    // One not CDATA is 2 at its status: before the form of its value. A value's form comes before its size.
    assert_eq!(translated(&[file(&[1, 5, 1, 2]), vec![128, 0]].concat()).0, 2);
    assert_eq!(translated(&[file(&[1, 5, 0, 2]), vec![128, 0]].concat()).0, 1);
    assert_eq!(translated(&file(&many(16))).0, 0);
    assert_eq!(translated(&file(&many(17))).0, 2);
    // The seventeenth is refused at its status, also in a later element, and before the form of its value.
    let mut later = numbers::file_of(&[&[2, 0, 0][..], &many(16), &[0, 1, 0, 0, 2]].concat());
    later.extend([128, 0]);
    assert_eq!(translated(&later).0, 2);
    assert_eq!(translated(&numbers::file_of(&[&[2, 0, 0][..], &many(16), &[0, 1, 0, 0, 1]].concat())).0, 0);
}

#[test]
fn entries_of_the_table() {
    let numbers = [2, 0, 0, 2, 3, 0, 2, 9, 63, 0, 2, 65_535, 0, 2, 0, 0, 2, 0, 1, 0, 0];
    let words = translated(&numbers::file_of(&numbers)).1;
    assert_eq!(words[6_626..6_640], [3, 0, 3, 9, 0, 63, 65_535, 1, 0, 0, 0, 0, 0, 0]);
    assert!(table::is_proper(&words));
    assert_eq!(words[3..5], [1 << 3 | 1 << 63, 0]);
}

#[test]
fn values_of_a_document() {
    let words = translated(&file(&[2, 5, 0, 2, 77, 6, 0, 1])).1;
    let (right, wrong) = (77 * 8 + 5, 78 * 8 + 5);
    for (doc, number) in [
        (&[1, 2][..], 0),
        (&[1, 44, right, 2], 0),
        (&[1, 44, wrong, 2], 8),
        (&[1, 44, right, right, 2], 8),
        (&[1, 44, right, wrong, 2], 8),
        (&[1, 44, right, 52, wrong, 2], 0),
        (&[1, 52, wrong, 2], 0),
    ] {
        assert_eq!(verdict(&words, doc), (number, 0), "{doc:?}");
    }
}

/// Each rule, broken by itself.
#[test]
fn proper() {
    // Element 0: attribute 1 CDATA, 2 CDATA required, 3 ID, 4 IDREF, 5 IDREFS, 6 and 7 CDATA. Element 1: attribute 1 CDATA.
    let attributes = [7, 1, 0, 1, 2, 0, 0, 3, 1, 1, 4, 2, 1, 5, 3, 1, 6, 0, 1, 7, 0, 1];
    let words = translated(&numbers::file_of(&[&[2, 0, 0][..], &attributes, &[0, 1, 1, 0, 1]].concat())).1;
    let with = |count: u64, entries: &[u64]| {
        let mut words = words.clone();
        words[6_626] = count;
        words[6_627..6_627 + entries.len()].copy_from_slice(entries);
        assert_eq!(verdict(&words, &[1, 2]).0 != 13, table::is_proper(&words));
        table::is_proper(&words)
    };
    assert!(with(0, &[]) && with(1, &[0, 1, 65_535]) && with(3, &[0, 1, 0, 0, 6, 9, 1, 1, 5]));
    for entry in
        [[0, 0, 9], [0, 2, 9], [0, 3, 9], [0, 4, 9], [0, 5, 9], [0, 64, 9], [0, 65, 9], [1, 2, 9], [2, 1, 9], [48, 1, 9], [0, 1, 65_536]]
    {
        assert!(!with(1, &entry), "{entry:?}");
    }
    for entries in [[0, 6, 9, 0, 1, 9], [0, 6, 9, 0, 6, 9], [1, 1, 9, 0, 6, 9]] {
        assert!(!with(2, &entries), "{entries:?}");
    }
    assert!(!with(1, &[0, 1, 9, 0, 6, 9]) && !with(0, &[0, 0, 9]) && !with(17, &[0, 1, 9]) && !with(u64::MAX, &[]));
    let mut last = words.clone();
    last[6_674] = 1;
    assert!(!table::is_proper(&last) && !table::is_proper(&words[..6_626]) && !table::is_proper(&[&words[..], &[0]].concat()));
}
