//! The paper's small shade, and what the binding adds to the calls: lengths, answers as types.
use shrikemuff::{compare, raw, read, token, write, Counts, Edit, Fault, Refusal, Table};
use shrikemuff::{COUNT_PLACES, MOST_BYTES, MOST_EDITS, MOST_TOKENS, SEQUENCE_PLACES, TABLE_WORDS};

const SCHEMA: [u8; 28] = [4, 0, 2, 5, 0, 4, 6, 3, 8, 1, 0, 0, 0, 2, 2, 3, 7, 1, 1, 1, 0, 1, 0, 0, 1, 2, 2, 0];
const SHADE: [u32; 15] = [1, 4, 61, 9, 12, 165, 17, 243, 2, 2, 25, 20, 165, 2, 2];
const FILE: [u8; 18] = [1, 4, 61, 9, 12, 165, 1, 17, 243, 1, 2, 2, 25, 20, 165, 1, 2, 2];
const BEHIND: u32 = 77;

fn table() -> Table {
    Table::translate(&SCHEMA).unwrap()
}

/// The shade in a buffer, with something behind it.
fn shade() -> Vec<u32> {
    let mut doc = vec![BEHIND; 40];
    doc[..15].copy_from_slice(&SHADE);
    doc
}

/// The elements of a document, counted.
fn counts_of(tokens: &[u32]) -> Counts {
    let mut counts = [0; COUNT_PLACES];
    for &start in tokens.iter().filter(|&&t| token::sort(t) == 1) {
        counts[token::number(start) as usize] += 1;
    }
    counts
}

fn fault<T>(refusal: Refusal, place: usize) -> Result<T, Fault> {
    Err(Fault { refusal, place })
}

/// Makes one edit of the shade: the new length, the change and the children looked at are due, or a fault. A refusal changes nothing; an
/// edit that is done leaves `left`, zeros up to the old length, and what was behind. The counts are those of the document, before and after.
#[track_caller]
fn edited(edit: Edit<'_>, due: Result<(usize, i32, usize), Fault>, left: &[u32]) {
    let (mut doc, mut back, mut counts) = (shade(), [BEHIND; 40], counts_of(&SHADE));
    let done = table().edit(&mut doc, 15, edit, &mut back, &mut counts);
    assert_eq!(done.map(|done| (done.used, done.change, done.children)), due);
    assert_eq!(counts, counts_of(&doc[..done.map_or(15, |done| done.used)]));
    let mut expected = shade();
    if due.is_ok() {
        expected[..15].fill(0);
        expected[..left.len()].copy_from_slice(left);
    } else {
        assert_eq!(back, [BEHIND; 40]);
    }
    assert_eq!(doc, expected);
}

#[test]
fn files() {
    let mut doc = vec![BEHIND; 20];
    assert_eq!(read(&FILE, &mut doc), Ok(15));
    assert_eq!(doc[..15], SHADE);
    assert_eq!(doc[15..], [BEHIND; 5]);
    let mut file = vec![99; 20];
    assert_eq!(write(&SHADE, &mut file), Ok(18));
    assert_eq!(file[..18], FILE);
    assert_eq!(file[18..], [99; 2]);
    assert_eq!(read(&[128, 0], &mut doc), Err(Refusal::Broken));
    assert_eq!(read(&FILE, &mut doc[..14]), Err(Refusal::Room));
    assert_eq!(read(&[], &mut []), Ok(0));
    assert_eq!(write(&[2_097_152], &mut file), Err(Refusal::Shape));
    assert_eq!(write(&SHADE, &mut file[..17]), Err(Refusal::Room));
    assert_eq!(write(&[], &mut []), Ok(0));
    let largest = vec![2_097_151; MOST_TOKENS];
    let mut file = vec![0; MOST_BYTES];
    assert_eq!(write(&largest, &mut file), Ok(MOST_BYTES));
    let mut doc = vec![0; MOST_TOKENS];
    assert_eq!(read(&file, &mut doc), Ok(MOST_TOKENS));
    assert_eq!(doc, largest);
}

#[test]
fn schemas() {
    let t = table();
    assert_eq!(t.words()[..4], [4, 0, 2, 1]);
    assert_eq!(format!("{:?}", t), "Table of 4 elements, root 0");
    assert_eq!(Table::from_words(Box::new(*t.words())), t);
    assert_eq!(Table::translate(&SCHEMA[..27]), Err(Refusal::Broken));
    assert_eq!(Table::translate(&[0]), Err(Refusal::Schema));
    assert_eq!(Table::translate(&[2, 0, 2, 4, 0, 2, 6, 6, 0, 0, 0]), Err(Refusal::Ambiguous));
}

/// An empty element with two attributes, of which the first is fixed: it may be absent, or has its value.
#[test]
fn fixed_attributes() {
    use shrikemuff::numbers::{CDATA, EMPTY, FIXED, FIXED_AT, FIXED_COUNT_AT, IDREFS, IMPLIED, MOST_FIXED};
    let translated = |numbers: &[u32]| {
        let mut file = [0; 99];
        let length = write(numbers, &mut file).unwrap();
        Table::translate(&file[..length])
    };
    let t = translated(&[1, 0, EMPTY, 2, 5, CDATA, FIXED, 65_535, 9, CDATA, IMPLIED]).unwrap();
    assert_eq!(t.words()[FIXED_COUNT_AT..FIXED_AT + 6], [1, 0, 5, 65_535, 0, 0, 0]);
    let checked = |tokens: &[u32]| t.check(tokens, tokens.len(), &mut [100; COUNT_PLACES]);
    let with = |value| [token::start(0), token::attribute(5), token::value(value), token::end()];
    assert_eq!(checked(&[token::start(0), token::end()]), Ok(()));
    assert_eq!(checked(&with(65_535)), Ok(()));
    assert_eq!(checked(&with(65_534)), fault(Refusal::Attributes, 0));
    let (mut doc, mut back, mut counts) = ([BEHIND; 8], [BEHIND; 8], [1; COUNT_PLACES]);
    doc[..4].copy_from_slice(&with(65_535));
    let set = |value| [token::attribute(5), token::value(value)];
    assert_eq!(t.edit(&mut doc, 4, Edit::set(0, &set(0)), &mut back, &mut counts), fault(Refusal::Attributes, 0));
    let done = t.edit(&mut doc, 4, Edit::drop(0, &set(0)[..1]), &mut back, &mut counts).unwrap();
    assert_eq!((done.used, done.back), (2, Edit::set(0, &set(65_535))));
    // in the file: another kind, a value too large, one too many; in the table: an entry too many, or that is no entry
    assert_eq!(translated(&[1, 0, EMPTY, 1, 5, IDREFS, FIXED, 7]), Err(Refusal::Schema));
    assert_eq!(translated(&[1, 0, EMPTY, 1, 5, CDATA, FIXED, 65_536]), Err(Refusal::Schema));
    assert_eq!(translated(&[1, 0, EMPTY, 1, 5, CDATA, FIXED]), Err(Refusal::Broken));
    for count in [MOST_FIXED as u32, MOST_FIXED as u32 + 1] {
        let attributes = (0..count).flat_map(|number| [number, CDATA, FIXED, 7]);
        let numbers: Vec<u32> = [1, 0, EMPTY, count].into_iter().chain(attributes).collect();
        assert_eq!(translated(&numbers).is_ok(), count == MOST_FIXED as u32);
    }
    for (word, value) in [(0, 17), (0, 0), (0, 2), (1, 1), (2, 4), (2, 64), (3, 65_536), (4, 1), (48, 1)] {
        let mut words = Box::new(*t.words());
        words[FIXED_COUNT_AT + word] = value;
        let verdict = Table::from_words(words).check(&with(65_535), 4, &mut [100; COUNT_PLACES]);
        assert_eq!(verdict, fault(Refusal::Table, 0), "word {word} is {value}");
    }
}

#[test]
fn checks() {
    let doc = shade();
    assert_eq!(table().check(&doc, 15, &mut [100; COUNT_PLACES]), Ok(()));
    assert_eq!(table().check(&doc, 14, &mut [100; COUNT_PLACES]), fault(Refusal::Shape, 0));
    assert_eq!(table().check(&doc, usize::MAX, &mut [100; COUNT_PLACES]), fault(Refusal::Shape, 0));
    assert_eq!(Table::from_words(Box::new([0; TABLE_WORDS])).check(&doc, 15, &mut [100; COUNT_PLACES]), fault(Refusal::Table, 0));
    let mut other = shade();
    other[0] = 9;
    assert_eq!(table().check(&other, 15, &mut [100; COUNT_PLACES]), fault(Refusal::Root, 0));
    let mut other = shade();
    other[12] = 173;
    assert_eq!(table().check(&other, 15, &mut [100; COUNT_PLACES]), fault(Refusal::NoId, 12));
}

#[test]
fn edits() {
    use Refusal::*;
    let panel = [9, 12, 173, 2];
    let twin = [9, 12, 165, 2];
    let link = [25, 20, 165, 2];
    edited(Edit::remove(3), fault(Content, 3), &[]);
    edited(Edit::remove(10), Ok((11, -4, 1)), &[1, 4, 61, 9, 12, 165, 17, 243, 2, 2, 2]);
    edited(Edit::remove(7), Ok((14, -1, 0)), &[1, 4, 61, 9, 12, 165, 17, 2, 2, 25, 20, 165, 2, 2]);
    edited(Edit::insert(7, &[243]), fault(Content, 8), &[]);
    edited(Edit::insert(10, &twin), fault(IdTwice, 12), &[]);
    edited(Edit::insert(10, &panel), Ok((19, 4, 3)), &[1, 4, 61, 9, 12, 165, 17, 243, 2, 2, 9, 12, 173, 2, 25, 20, 165, 2, 2]);
    edited(Edit::insert(3, &link), fault(Content, 3), &[]);
    edited(Edit::insert(10, &link), Ok((19, 4, 3)), &[1, 4, 61, 9, 12, 165, 17, 243, 2, 2, 25, 20, 165, 2, 25, 20, 165, 2, 2]);
    edited(Edit::replace(3, &panel), fault(NoId, 9), &[]);
    edited(Edit::drop(3, &[12]), fault(Attributes, 3), &[]);
    edited(Edit::set(0, &[4, 69]), Ok((15, 0, 2)), &[1, 4, 69, 9, 12, 165, 17, 243, 2, 2, 25, 20, 165, 2, 2]);
    for place in [0, 1, 15, usize::MAX] {
        edited(Edit::insert(place, &panel), fault(Place, 0), &[]);
    }
    edited(Edit { operation: 6, place: 3, piece: &[] }, fault(Place, 0), &[]);
    edited(Edit::insert(10, &panel[..3]), fault(Shape, 0), &[]);
    let mut short = SHADE;
    assert_eq!(table().edit(&mut short, 15, Edit::insert(10, &panel), &mut [0; 3], &mut [100; COUNT_PLACES]), fault(Room, 0));
    assert_eq!(short, SHADE);
}

/// Makes an edit of a document that is done, and takes it back: `due` is the edit that does. The one that takes this back is the edit.
#[track_caller]
fn taken_back(table: &Table, tokens: &[u32], edit: Edit<'_>, due: Edit<'_>) {
    let used = tokens.len();
    let (mut doc, mut back, mut other) = (tokens.to_vec(), [BEHIND; 40], [BEHIND; 40]);
    doc.resize(40, BEHIND);
    let mut counts = counts_of(tokens);
    let done = table.edit(&mut doc, used, edit, &mut back, &mut counts).unwrap();
    assert_eq!(done.back, due);
    assert_eq!(counts, counts_of(&doc[..done.used]));
    let undone = table.edit(&mut doc, done.used, done.back, &mut other, &mut counts).unwrap();
    assert_eq!((undone.used, undone.change, counts), (used, -done.change, counts_of(tokens)));
    assert_eq!(undone.back, edit);
    assert_eq!(doc[..used], *tokens);
    let numbers: Vec<u32> = due.numbers().collect();
    assert_eq!(back[..numbers.len()], numbers);
    assert!(back[numbers.len()..].iter().all(|&number| number == BEHIND));
    // as much room as it takes, and no less: nothing is written then
    let least = numbers.len();
    assert_eq!(table.edit(&mut doc, used, edit, &mut other[..least - 1], &mut counts), fault(Refusal::Room, 0));
    assert_eq!(doc[..used], *tokens);
    assert!(table.edit(&mut doc, used, edit, &mut other[..least], &mut counts).is_ok());
}

#[test]
fn steps_back() {
    let panel = [9, 12, 173, 2];
    let t = table();
    taken_back(&t, &SHADE, Edit::insert(10, &panel), Edit::remove(10));
    taken_back(&t, &SHADE, Edit::remove(10), Edit::insert(10, &SHADE[10..14]));
    taken_back(&t, &SHADE, Edit::remove(7), Edit::insert(7, &[243]));
    taken_back(&t, &SHADE, Edit::replace(6, &[17, 2]), Edit::replace(6, &SHADE[6..9]));
    taken_back(&t, &SHADE, Edit::replace(0, &[1, 4, 61, 9, 12, 165, 2, 2]), Edit::replace(0, &SHADE));
    taken_back(&t, &SHADE, Edit::set(0, &[4, 69]), Edit::set(0, &[4, 61]));
    taken_back(&t, &SHADE, Edit::set(0, &[4, 61]), Edit::set(0, &[4, 61]));
    // the root has two attributes that may be absent, the second one of many values; its children have an ID
    let t = Table::translate(&[2, 0, 2, 2, 3, 6, 2, 0, 0, 1, 1, 3, 1, 0, 1, 2, 1, 0]).unwrap();
    let doc = [1, 4, 61, 12, 165, 165, 9, 20, 165, 2, 2];
    taken_back(&t, &doc, Edit::drop(0, &[12]), Edit::set(0, &[12, 165, 165]));
    taken_back(&t, &doc, Edit::set(0, &[12, 165]), Edit::set(0, &[12, 165, 165]));
    taken_back(&t, &[1, 4, 61, 9, 20, 165, 2, 2], Edit::set(0, &[12, 165, 165]), Edit::drop(0, &[12]));
}

/// A second buffer that is too short is refused after the place, and before the document is judged.
#[test]
fn short_second_buffers() {
    let mut doc = shade();
    let (mut back, mut counts) = ([BEHIND; 10], counts_of(&SHADE));
    for room in 0..10 {
        assert_eq!(table().edit(&mut doc, 15, Edit::remove(3), &mut back[..room], &mut counts), fault(Refusal::Room, 0));
        assert_eq!(table().edit(&mut doc, 15, Edit::remove(15), &mut back[..room], &mut counts), fault(Refusal::Place, 0));
    }
    assert_eq!(table().edit(&mut doc, 15, Edit::remove(3), &mut back, &mut counts), fault(Refusal::Content, 3));
    assert_eq!((back, counts), ([BEHIND; 10], counts_of(&SHADE)));
    assert_eq!(doc, shade());
}

#[test]
fn edits_as_numbers() {
    let edit = Edit::insert(10, &[9, 12, 173, 2]);
    let numbers: Vec<u32> = edit.numbers().collect();
    assert_eq!(numbers, [1, 10, 4, 9, 12, 173, 2]);
    assert_eq!(Edit::read(&[&numbers[..], &[BEHIND]].concat()), Some(edit));
    for length in 0..7 {
        assert_eq!(Edit::read(&numbers[..length]), None);
    }
    assert_eq!(Edit::read(&[2, u32::MAX, u32::MAX]), None);
    assert_eq!(Edit::read(&[2, 3, 0]), Some(Edit::remove(3)));
    assert!(Edit::remove(usize::MAX).numbers().eq([2, u32::MAX, 0]));
    let largest = Edit::read(&[u32::MAX, u32::MAX, 0]).unwrap();
    assert_eq!((largest.operation, largest.place), (u32::MAX, u32::MAX as usize));
}

/// The paper's run of edits but for its refused ones: a second panel comes, the use goes, the first panel goes.
fn step() -> Vec<u32> {
    [Edit::insert(10, &[9, 12, 173, 2]), Edit::remove(14), Edit::remove(3)].iter().flat_map(|edit| edit.numbers()).collect()
}

/// Makes a list of edits of the shade: the new length, how many are done, and of the last one change and children or a fault.
#[track_caller]
fn listed(list: &[u32], due: (usize, usize, Result<(i32, usize), Fault>)) -> Vec<u32> {
    let (mut doc, mut counts) = (shade(), counts_of(&SHADE));
    let listed = table().list(&mut doc, 15, list, &mut counts);
    assert_eq!(counts, counts_of(&doc[..listed.used]));
    assert_eq!((listed.used, listed.done, listed.last.map(|last| (last.change, last.children))), due);
    doc
}

#[test]
fn lists() {
    use Refusal::{Content, Room, Shape};
    // what single calls leave, zeros up to the longest included
    let mut left = shade();
    left[..19].fill(0);
    left[..8].copy_from_slice(&[1, 4, 61, 9, 12, 173, 2, 2]);
    assert_eq!(listed(&step(), (8, 3, Ok((-7, 1)))), left);
    assert_eq!(listed(&[2, 10, 0], (11, 1, Ok((-4, 1))))[..15], [1, 4, 61, 9, 12, 165, 17, 243, 2, 2, 2, 0, 0, 0, 0]);
    // it ends at the first that is refused, and what was done before stands
    let refused = [2, 3, 0];
    assert_eq!(listed(&[&refused[..], &step()].concat(), (15, 0, fault(Content, 3))), shade());
    assert_eq!(listed(&[&step(), &refused[..], &step()].concat(), (8, 3, fault(Content, 3))), left);
    // the list itself, before any edit is run
    assert_eq!(listed(&[], (15, 0, fault(Shape, 0))), shade());
    for length in (1..step().len()).filter(|&length| length != 7 && length != 10) {
        assert_eq!(listed(&step()[..length], (15, 0, fault(Shape, 0))), shade());
    }
    let set = [4, 0, 2, 4, 69];
    let mut done = shade();
    done[2] = 69;
    assert_eq!(listed(&set.repeat(MOST_EDITS), (15, MOST_EDITS, Ok((0, 2)))), done);
    assert_eq!(listed(&set.repeat(MOST_EDITS + 1), (15, 0, fault(Room, 0))), shade());
    assert_eq!(listed(&[&set.repeat(MOST_EDITS)[..], &[4]].concat(), (15, 0, fault(Room, 0))), shade());
    // a piece over 8,192 tokens that is all there is its edit's own fault
    let long = vec![243; MOST_TOKENS + 1];
    let edit: Vec<u32> = Edit::insert(7, &long).numbers().collect();
    assert_eq!(listed(&[&set[..], &edit].concat(), (15, 1, fault(Shape, 0))), done);
    // the table and the document are the first edit's
    let none = Table::from_words(Box::new([0; TABLE_WORDS]));
    let listed = none.list(&mut shade(), 15, &step(), &mut [100; COUNT_PLACES]);
    assert_eq!((listed.used, listed.done, listed.last.map(|_| ())), (15, 0, fault(Refusal::Table, 0)));
    let listed = table().list(&mut shade(), usize::MAX, &step(), &mut [100; COUNT_PLACES]);
    assert_eq!((listed.used, listed.done, listed.last.map(|_| ())), (usize::MAX, 0, fault(Shape, 0)));
}

/// Makes a group of edits of the shade: the new length and the change are due, or a fault, its place and which edit it was. What the
/// second buffer holds then.
#[track_caller]
fn grouped(list: &[u32], due: Result<(usize, i32), (Refusal, usize, Option<usize>)>) -> Vec<u32> {
    let (mut doc, mut second) = (shade(), vec![BEHIND + 1; 41]);
    let said = table().group(&mut doc, 15, list, &mut second);
    assert_eq!(said.map(|done| (done.used, done.change)).map_err(|f| (f.fault.refusal, f.fault.place, f.which)), due);
    let mut expected = shade();
    if let Ok((used, _)) = due {
        expected[..15].fill(0);
        expected[..used].copy_from_slice(&second[..used]);
    }
    assert_eq!(doc, expected);
    second
}

#[test]
fn groups() {
    use Refusal::{Attributes, Content, IdTwice, NoId, Place, Room, Shape};
    let second = |tokens: &[u32], longest: usize| {
        let mut second = vec![BEHIND + 1; 41];
        second[..longest].fill(0);
        second[..tokens.len()].copy_from_slice(tokens);
        second
    };
    // a rename: the panel's ID, and the use that refers to it; each alone is refused
    let rename = [4, 3, 2, 12, 173, 4, 10, 2, 20, 173];
    let mut renamed = SHADE;
    (renamed[5], renamed[12]) = (173, 173);
    assert_eq!(grouped(&rename, Ok((15, 0))), second(&renamed, 15));
    assert_eq!(grouped(&rename[..5], Err((NoId, 12, None)))[5], 173);
    assert_eq!(grouped(&rename[5..], Err((NoId, 12, None)))[12], 173);
    // what is longer on the way is 0 behind the last document
    let step = [1, 10, 4, 9, 12, 165, 2, 2, 3, 0];
    assert_eq!(grouped(&step, Ok((12, -3))), second(&[1, 4, 61, 9, 12, 165, 2, 25, 20, 165, 2, 2], 19));
    // the last document's fault, with its place: attributes, content, an ID twice
    assert_eq!(grouped(&[5, 3, 1, 12], Err((Attributes, 3, None)))[..4], [1, 4, 61, 9]);
    grouped(&[2, 3, 0], Err((Content, 3, None)));
    grouped(&step[..7], Err((IdTwice, 12, None)));
    // an edit that is refused, and which; the second buffer has what was reached
    assert_eq!(grouped(&[2, 15, 0], Err((Place, 0, Some(1)))), second(&SHADE, 15));
    let longer = [1, 4, 61, 9, 12, 165, 17, 243, 2, 2, 9, 12, 165, 2, 25, 20, 165, 2, 2];
    assert_eq!(grouped(&[&step[..7], &[6, 3, 0]].concat(), Err((Place, 0, Some(2)))), second(&longer, 19));
    assert_eq!(grouped(&[&step[..7], &[1, 3, 1, 9]].concat(), Err((Shape, 0, Some(2)))), second(&longer, 19));
    let many: Vec<u32> = step[..7].repeat(7);
    grouped(&many, Err((Room, 0, Some(7))));
    // the group itself: nothing is written
    let untouched = second(&[], 0);
    assert_eq!(grouped(&[], Err((Shape, 0, None))), untouched);
    assert_eq!(grouped(&rename[..9], Err((Shape, 0, None))), untouched);
    assert_eq!(grouped(&[2, 15, 0].repeat(MOST_EDITS + 1), Err((Room, 0, None))), untouched);
    let refused = |table: &Table, used, places: usize| {
        let (mut doc, mut short) = (shade(), vec![BEHIND; places]);
        let fault = table.group(&mut doc, used, &rename, &mut short).unwrap_err();
        assert_eq!((doc, short, fault.which), (shade(), vec![BEHIND; places], None));
        fault.fault.refusal
    };
    assert_eq!(refused(&table(), 15, 39), Room);
    assert_eq!(refused(&table(), 14, 39), Shape);
    assert_eq!(refused(&Table::from_words(Box::new([0; TABLE_WORDS])), 14, 39), Refusal::Table);
    let fault = table().group(&mut shade(), 15, &[2, 15, 0], &mut [0; 40]).unwrap_err();
    assert_eq!(fault.to_string(), "operation or place, edit 1");
    let fault = table().group(&mut shade(), 15, &rename[..5], &mut [0; 40]).unwrap_err();
    assert_eq!(fault.to_string(), "reference to none at 12");
}

/// Counts are written by a check that says valid; any numbers are taken, and an edit does not bring them out of their range.
#[test]
fn counts() {
    let t = table();
    let mut counts = [-7; COUNT_PLACES];
    assert_eq!(t.check(&shade(), 14, &mut counts), fault(Refusal::Shape, 0));
    assert_eq!(counts, [-7; COUNT_PLACES]);
    assert_eq!(t.elements(&counts, 0), Err(Refusal::Counts));
    assert_eq!(t.check(&shade(), 15, &mut counts), Ok(()));
    assert_eq!(counts, counts_of(&SHADE));
    for (name, due) in [(0, 1), (1, 1), (2, 1), (3, 1), (4, 0), (47, 0), (u32::MAX, 0)] {
        assert_eq!(t.elements(&counts, name), Ok(due));
    }
    let panel = [9, 12, 173, 2];
    for (panels, due) in [(8_191, Ok(8_192)), (8_192, Err(Refusal::Counts)), (-1, Ok(0)), (-2, Err(Refusal::Counts))] {
        for (before, due) in [(panels, due), (i32::MAX, Err(Refusal::Counts)), (i32::MIN, Err(Refusal::Counts))] {
            let (mut doc, mut lent) = (shade(), counts);
            lent[1] = before;
            let done = t.edit(&mut doc, 15, Edit::insert(10, &panel), &mut [0; 3], &mut lent).map(|_| ());
            assert_eq!(done.map_err(|fault| fault.refusal), due.map(|_| ()));
            assert_eq!(lent[1], due.map_or(before, |panels: i32| panels));
            assert_eq!(doc == shade(), due.is_err());
        }
    }
    // directly after the sizes and before the judgement, also where none moves
    counts[47] = 8_193;
    let mut doc = shade();
    assert_eq!(t.edit(&mut doc, 15, Edit::set(0, &[4, 69]), &mut [0; 5], &mut counts), fault(Refusal::Counts, 0));
    assert_eq!(t.edit(&mut doc, 15, Edit::remove(3), &mut [0; 10], &mut counts), fault(Refusal::Counts, 0));
    assert_eq!(t.edit(&mut doc, 15, Edit::remove(3), &mut [0; 9], &mut counts), fault(Refusal::Room, 0));
    assert_eq!(t.list(&mut doc, 15, &[2, 10, 0], &mut counts).last.map(|_| ()), fault(Refusal::Counts, 0));
    assert_eq!(t.elements(&counts, 1), Err(Refusal::Counts));
    assert_eq!(Table::from_words(Box::new([0; TABLE_WORDS])).elements(&counts, 1), Err(Refusal::Table));
}

#[test]
fn comparisons() {
    // the shade as panel+, use* and as (panel | use)*
    let mut other = SCHEMA.to_vec();
    other.splice(3..9, [4, 3, 1, 6, 8]);
    let (old, new) = (Table::translate(&other).unwrap(), table());
    let mut sequence = [BEHIND; SEQUENCE_PLACES];
    assert_eq!(compare(&new, &old, 0, &mut sequence), Ok(None));
    assert_eq!(compare(&old, &new, 0, &mut sequence), Ok(Some(&[][..])));
    assert_eq!(sequence, [BEHIND; SEQUENCE_PLACES]);
    assert_eq!(compare(&old, &new, 2, &mut sequence), Err(Refusal::NotCompared));
    assert_eq!(compare(&old, &new, 4, &mut sequence), Err(Refusal::Place));
    assert_eq!(compare(&old, &new, u32::MAX, &mut sequence), Err(Refusal::Place));
    assert_eq!(compare(&new, &new, 0, &mut sequence[1..]), Err(Refusal::Room));
    let none = Table::from_words(Box::new([0; TABLE_WORDS]));
    assert_eq!(compare(&none, &new, 0, &mut sequence), Err(Refusal::Table));
    assert_eq!(compare(&new, &none, 0, &mut sequence), Err(Refusal::Table));
    assert_eq!(sequence, [BEHIND; SEQUENCE_PLACES]);
    // as panel, panel+
    let mut twice = SCHEMA.to_vec();
    twice.splice(3..9, [4, 0, 6, 4, 6]);
    let twice = Table::translate(&twice).unwrap();
    assert_eq!(compare(&new, &twice, 0, &mut sequence), Ok(Some(&[1][..])));
    assert_eq!(sequence[1], BEHIND);
    assert_eq!(compare(&twice, &new, 0, &mut sequence), Ok(None));
}

/// The raw answer of an edit gives back the length that was handed in, with all its bits.
#[test]
fn raw_lengths() {
    let t = table();
    let (mut doc, mut counts) = (shade(), [100; COUNT_PLACES]);
    let given = (1 << 40) + 15;
    // SAFETY: the pointers are those of live slices, with their lengths.
    let r = unsafe {
        let (words, doc, room) = (t.words().as_ptr(), doc.as_mut_ptr(), doc.len());
        raw::shrike_edit(words, TABLE_WORDS, doc, room, given, 2, 10, [].as_ptr(), 0, [].as_mut_ptr(), 0, counts.as_mut_ptr())
    };
    assert_eq!(r, raw::Answer { number: 4, place: 0, used: given, change: 0, children: 0 });
    assert_eq!(doc, shade());
}

#[test]
fn tokens() {
    let of = [
        token::start(0),
        token::attribute(0),
        token::value(7),
        token::start(1),
        token::attribute(1),
        token::value(20),
        token::start(2),
        token::text(30),
        token::end(),
    ];
    assert_eq!(of, SHADE[..9]);
    let parts: Vec<(u32, u32)> = of.iter().map(|&t| (token::number(t), token::sort(t))).collect();
    assert_eq!(parts, [(0, 1), (0, 4), (7, 5), (1, 1), (1, 4), (20, 5), (2, 1), (30, 3), (0, 2)]);
    assert_eq!(token::text(65_535), 524_283);
}
