//! The plain version on the paper's small shade and its four models.

use super::{Keys, Plain, BACK, PLACES, WORDS};
use crate::calls::{Answer, Calls, Compared, Count, Counts, Verdict};
use crate::documents::{cycle, file, other_small_shade};

const SCHEMA: [u8; 28] = [4, 0, 2, 5, 0, 4, 6, 3, 8, 1, 0, 0, 0, 2, 2, 3, 7, 1, 1, 1, 0, 1, 0, 0, 1, 2, 2, 0];
const SHADE: [u32; 15] = [1, 4, 61, 9, 12, 165, 17, 243, 2, 2, 25, 20, 165, 2, 2];

fn both() -> [Plain; 2] {
    [Plain { keys: Keys::Pairs }, Plain { keys: Keys::Field }]
}

fn table(plain: &Plain) -> Vec<u64> {
    let mut table = vec![0; WORDS];
    assert_eq!(plain.translate(&SCHEMA, &mut table), 0);
    table
}

/// The counts of a valid document.
fn counts_of(table: &[u64], tokens: &[u32]) -> Counts {
    let mut counts = [-7; 48];
    assert_eq!(Plain { keys: Keys::Field }.check(table, tokens, tokens.len() as u64, &mut counts), Verdict { number: 0, place: 0 });
    counts
}

/// The answer to an edit of the small shade in a buffer of 32 places. If it is done, it is taken back.
fn answer(operation: u32, place: u64, piece: &[u32]) -> Answer {
    let [plain, field] = both();
    let table = table(&plain);
    let mut buffer = [7u32; 32];
    buffer[..15].copy_from_slice(&SHADE);
    let before = buffer;
    let mut second = buffer;
    let (mut back, mut other) = ([7; 32], [7; 32]);
    let (mut counts, mut second_counts) = (counts_of(&table, &SHADE), counts_of(&table, &SHADE));
    let answer = plain.edit(&table, &mut buffer, 15, operation, place, piece, &mut back, &mut counts);
    assert_eq!(answer, field.edit(&table, &mut second, 15, operation, place, piece, &mut other, &mut second_counts));
    assert_eq!((buffer, back, counts), (second, other, second_counts));
    assert_eq!(answer.change as i64, answer.used as i64 - 15);
    if answer.number == 0 {
        let used = answer.used as usize;
        assert!(buffer[used..].iter().enumerate().all(|(k, &token)| token == if used + k < 15 { 0 } else { 7 }));
        assert_eq!(counts, counts_of(&table, &buffer[..used]));
        let (by, with) = (back[0], &back[3..3 + back[2] as usize]);
        let undone = plain.edit(&table, &mut buffer, answer.used, by, u64::from(back[1]), with, &mut other[..3 + piece.len()], &mut counts);
        assert_eq!((undone.number, undone.used, &buffer[..15], counts), (0, 15, &SHADE[..], counts_of(&table, &SHADE)));
        assert_eq!((other[0], u64::from(other[1]), &other[3..3 + piece.len()]), (operation, place, piece));
    } else {
        assert_eq!((buffer, back, counts), (before, [7; 32], counts_of(&table, &SHADE)));
    }
    answer
}

/// Its number, place and used length.
fn edited(operation: u32, place: u64, piece: &[u32]) -> (u32, u32, u64) {
    let answer = answer(operation, place, piece);
    (answer.number, answer.place, answer.used)
}

#[test]
fn small_shade_is_valid() {
    for plain in &both() {
        assert_eq!(plain.check(&table(plain), &SHADE, 15, &mut [0; 48]), Verdict { number: 0, place: 0 });
        assert_eq!(plain.check(&table(plain), &SHADE, 14, &mut [0; 48]).number, 4);
        assert_eq!(plain.check(&table(plain), &SHADE, 16, &mut [0; 48]).number, 4);
        assert_eq!(plain.check(&table(plain)[1..], &SHADE, 15, &mut [0; 48]).number, 13);
    }
}

#[test]
fn edits_of_the_small_shade() {
    assert_eq!(edited(2, 3, &[]), (9, 3, 15));
    assert_eq!(edited(2, 10, &[]), (0, 0, 11));
    assert_eq!(edited(2, 7, &[]), (0, 0, 14));
    assert_eq!(edited(1, 7, &[243]), (9, 8, 15));
    assert_eq!(edited(1, 10, &[9, 12, 165, 2]), (11, 12, 15));
    assert_eq!(edited(1, 10, &[9, 12, 173, 2]), (0, 0, 19));
    assert_eq!(edited(1, 3, &[25, 20, 165, 2]), (9, 3, 15));
    assert_eq!(edited(1, 10, &[25, 20, 165, 2]), (0, 0, 19));
    assert_eq!(edited(3, 3, &[9, 12, 173, 2]), (12, 9, 15));
    assert_eq!(edited(5, 3, &[12]), (8, 3, 15));
    for place in [0, 1, 15] {
        assert_eq!(edited(1, place, &[25, 20, 165, 2]), (6, 0, 15));
    }
    assert_eq!(edited(1, 14, &[25, 20, 165, 2]), (0, 0, 19));
}

#[test]
fn children_looked_at() {
    let children = |operation, place, piece: &[u32]| answer(operation, place, piece).children;
    assert_eq!(children(1, 10, &[9, 12, 173, 2]), 3);
    assert_eq!(children(2, 10, &[]), 1);
    assert_eq!(children(2, 7, &[]), 0);
    assert_eq!(children(3, 3, &[9, 12, 165, 17, 243, 2, 17, 251, 2, 2]), 6);
    assert_eq!(children(3, 0, &SHADE), 4);
    assert_eq!(children(4, 0, &[4, 69]), 2);
    assert_eq!(children(2, 3, &[]), 0);
}

#[test]
fn refusals_in_order() {
    assert_eq!(edited(0, 3, &[9]), (6, 0, 15));
    assert_eq!(edited(1, 99, &[9]), (4, 0, 15));
    assert_eq!(edited(3, 0, &[243]), (6, 0, 15));
    assert_eq!(edited(4, 3, &[12, 173]), (12, 12, 15));
    assert_eq!(edited(4, 3, &[12, 165, 173]), (8, 3, 15));
    assert_eq!(edited(4, 0, &[4, 69]), (0, 0, 15));
    assert_eq!(edited(4, 3, &[4, 69]), (8, 3, 15));
    assert_eq!(edited(5, 3, &[4]), (6, 0, 15));
    let mut many = vec![9];
    many.extend([17, 243, 2].repeat(8));
    many.push(2);
    assert_eq!(edited(3, 3, &many), (5, 0, 15));
}

#[test]
fn a_run_of_edits() {
    let plain = Plain { keys: Keys::Pairs };
    let table = table(&plain);
    let mut buffer = vec![0; 8192];
    buffer[..15].copy_from_slice(&SHADE);
    let mut used = 15;
    let steps: [(u32, u64, &[u32], (u32, u32, u64)); 5] = [
        (2, 3, &[], (9, 3, 15)),
        (1, 10, &[9, 12, 173, 2], (0, 0, 19)),
        (3, 3, &[9, 12, 173, 2], (11, 9, 19)),
        (2, 14, &[], (0, 0, 15)),
        (2, 3, &[], (0, 0, 8)),
    ];
    for (operation, place, piece, expected) in steps {
        let Answer { number, place, used: now, .. } =
            plain.edit(&table, &mut buffer, used, operation, place, piece, &mut [0; BACK], &mut [100; 48]);
        assert_eq!((number, place, now), expected);
        used = now;
    }
}

/// A group is judged at its end; both buffers are as they should be.
#[test]
fn groups() {
    let plain = Plain { keys: Keys::Field };
    let table = table(&plain);
    let grouped = |list: &[u32], room: usize| {
        let (mut buffer, mut second) = ([7; 32], vec![8; room]);
        buffer[..15].copy_from_slice(&SHADE);
        let said = plain.group(&table, &mut buffer, 15, list, &mut second);
        ((said.number, said.place, said.used, said.change, said.which), buffer[..20].to_vec(), second)
    };
    let left = |tokens: &[u32], longest: usize, behind: u32, room: usize| {
        let mut left = vec![behind; room];
        left[..longest].fill(0);
        left[..tokens.len()].copy_from_slice(tokens);
        left
    };
    let rename = [4, 3, 2, 12, 173, 4, 10, 2, 20, 173];
    let mut renamed = SHADE;
    (renamed[5], renamed[12]) = (173, 173);
    assert_eq!(grouped(&rename, 33), ((0, 0, 15, 0, 0), left(&renamed, 15, 7, 20), left(&renamed, 15, 8, 33)));
    let before = left(&SHADE, 15, 7, 20);
    let (said, buffer, second) = grouped(&rename[..5], 32);
    assert_eq!((said, buffer, second[5]), ((12, 12, 15, 0, 0), before.clone(), 173));
    assert_eq!(grouped(&rename, 31), ((5, 0, 15, 0, 0), before.clone(), vec![8; 31]));
    assert_eq!(grouped(&rename[..9], 31), ((4, 0, 15, 0, 0), before.clone(), vec![8; 31]));
    let twin = [1, 10, 4, 9, 12, 165, 2, 2, 3, 0, 2, 12, 0];
    let shorter = [1, 4, 61, 9, 12, 165, 2, 25, 20, 165, 2, 2];
    assert_eq!(grouped(&twin[..10], 32), ((0, 0, 12, -3, 0), left(&shorter, 15, 7, 20), left(&shorter, 19, 8, 32)));
    assert_eq!(grouped(&twin, 32), ((6, 0, 15, 0, 3), before, left(&shorter, 19, 8, 32)));
}

/// A fixed attribute may be absent, and has its value if it is present.
#[test]
fn fixed_attributes() {
    let plain = Plain { keys: Keys::Field };
    let mut table = vec![0; WORDS];
    assert_eq!(plain.translate(&[2, 0, 2, 2, 3, 6, 1, 3, 0, 2, 7, 0, 1, 3, 0, 2, 9], &mut table), 0);
    assert_eq!(table[6626..6634], [2, 0, 3, 7, 1, 3, 9, 0]);
    let checked = |table: &[u64], tokens: &[u32]| {
        let verdict = plain.check(table, tokens, tokens.len() as u64, &mut [0; 48]);
        (verdict.number, verdict.place)
    };
    assert_eq!(checked(&table, &[1, 28, 61, 9, 28, 77, 2, 9, 2, 2]), (0, 0));
    assert_eq!(checked(&table, &[1, 28, 77, 2]), (8, 0));
    assert_eq!(checked(&table, &[1, 9, 28, 61, 2, 2]), (8, 1));
    for (word, value) in [(0, 17), (0, 1), (0, 3), (1, 1), (1, 2), (2, 4), (2, 64), (3, 65_536), (4, 0), (7, 1), (48, 1)] {
        let mut damaged = table.clone();
        damaged[6626 + word] = value;
        assert_eq!(checked(&damaged, &[1, 2]), (13, 0), "word {} is {}", word, value);
    }
    let translated = |file: &[u8]| plain.translate(file, &mut vec![0; WORDS]);
    assert_eq!(translated(&[1, 0, 0, 1, 3, 2, 2, 7]), 2);
    assert_eq!(translated(&[1, 0, 0, 1, 3, 0, 2, 128, 128, 4]), 2);
    assert_eq!(translated(&[1, 0, 0, 1, 3, 0, 2]), 1);
    let fixed = |count: u8| [vec![1, 0, 0, count], (0..count).flat_map(|number| [number, 0, 2, 7]).collect()].concat();
    assert_eq!((translated(&fixed(16)), translated(&fixed(17))), (0, 2));
}

/// Counts are written by a check, asked for, and kept in their range.
#[test]
fn counts() {
    let plain = Plain { keys: Keys::Field };
    let table = table(&plain);
    let mut counts = counts_of(&table, &SHADE);
    assert_eq!(counts[..5], [1, 1, 1, 1, 0]);
    let asked = |counts: &Counts, name| plain.elements(&table, counts, name);
    assert_eq!((asked(&counts, 3), asked(&counts, 4)), (Count { number: 0, count: 1 }, Count { number: 0, count: 0 }));
    assert_eq!(plain.elements(&table[1..], &counts, 3).number, 13);
    for (panels, number) in [(-1, 0), (-2, 15), (8191, 0), (8192, 15), (i32::MAX, 15), (i32::MIN, 15)] {
        let mut buffer = [7; 32];
        buffer[..15].copy_from_slice(&SHADE);
        let mut lent = counts;
        lent[1] = panels;
        assert_eq!(plain.edit(&table, &mut buffer, 15, 1, 10, &[9, 12, 173, 2], &mut [0; 3], &mut lent).number, number);
        assert_eq!(lent[1], if number == 0 { panels + 1 } else { panels });
    }
    counts[47] = -1;
    assert_eq!(asked(&counts, 99).number, 15);
    assert_eq!(plain.edit(&table, &mut SHADE.clone(), 15, 2, 3, &[], &mut [0; 10], &mut counts).number, 15);
}

/// A list is its single edits, up to one that is refused; and it is refused itself before any is made.
#[test]
fn lists() {
    let plain = Plain { keys: Keys::Field };
    let table = table(&plain);
    let listed = |list: &[u32]| {
        let mut buffer = [7; 32];
        buffer[..15].copy_from_slice(&SHADE);
        let mut counts = counts_of(&table, &SHADE);
        let listed = plain.list(&table, &mut buffer, 15, list, &mut counts);
        assert_eq!(counts, counts_of(&table, &buffer[..listed.last.used as usize]));
        ((listed.last.number, listed.last.place, listed.last.used, listed.last.change, listed.done), buffer)
    };
    let step = [1, 10, 4, 9, 12, 173, 2, 2, 14, 0, 2, 3, 0, 2, 3, 0];
    let mut left = [7; 32];
    left[..19].fill(0);
    left[..8].copy_from_slice(&[1, 4, 61, 9, 12, 173, 2, 2]);
    assert_eq!(listed(&step[..13]), ((0, 0, 8, -7, 3), left));
    assert_eq!(listed(&step), ((9, 3, 8, 0, 3), left));
    for length in [0, 1, 2, 3, 6, 8, 9, 11, 14] {
        assert_eq!(listed(&step[..length]).0, (4, 0, 15, 0, 0));
    }
    let title = [4, 0, 2, 4, 69];
    assert_eq!(listed(&title.repeat(256)).0, (0, 0, 15, 0, 256));
    for more in [&title[..1], &title] {
        assert_eq!(listed(&[&title.repeat(256), more].concat()).0, (5, 0, 15, 0, 0));
    }
}

/// The answer to a schema of four elements whose root has this model, the others being empty.
fn model(symbols: &[u8]) -> u32 {
    let mut file = vec![4, 0, 2];
    file.extend(if symbols.len() < 128 { vec![symbols.len() as u8] } else { vec![symbols.len() as u8, 1] });
    file.extend(symbols);
    file.extend([0, 0, 0, 0, 0, 0, 0]);
    Plain { keys: Keys::Pairs }.translate(&file, &mut vec![0; WORDS])
}

#[test]
fn four_models() {
    let sequence = |count: usize| [vec![0; count - 1], vec![6; count]].concat();
    assert_eq!(model(&[0, 2, 6, 6]), 3);
    assert_eq!(model(&[1, 0, 6, 7, 0, 6, 8]), 3);
    assert_eq!(model(&[3, 0, 3, 6, 3, 7]), 0);
    assert_eq!(model(&sequence(64)), 0);
    assert_eq!(model(&sequence(65)), 2);
    assert_eq!(model(&[0, 6]), 2);
    assert_eq!(model(&[6, 6]), 2);
    assert_eq!(model(&[9]), 2);
}

#[test]
fn files() {
    let plain = Plain { keys: Keys::Pairs };
    let refused = |number| Count { number, count: 0 };
    let mut tokens = [9; 4];
    assert_eq!(plain.read(&[127, 128, 1, 255, 255, 127], &mut tokens), Count { number: 0, count: 3 });
    assert_eq!(tokens, [127, 128, 2_097_151, 9]);
    assert_eq!(plain.read(&[], &mut []), Count { number: 0, count: 0 });
    for broken in [&[128][..], &[128, 0], &[128, 128, 0], &[255, 255, 255, 1], &[1, 1, 1, 1, 128]] {
        assert_eq!(plain.read(broken, &mut tokens), refused(1));
    }
    assert_eq!(plain.read(&[1, 1, 1, 1, 1], &mut tokens), refused(5));
    let mut file = [7; 7];
    assert_eq!(plain.write(&[127, 128, 2_097_151], &mut file), Count { number: 0, count: 6 });
    assert_eq!(file, [127, 128, 1, 255, 255, 127, 7]);
    assert_eq!(plain.write(&[127, 128, 2_097_151], &mut file[..5]), refused(5));
    assert_eq!(plain.write(&[2_097_152], &mut []), refused(4));
    assert_eq!(plain.write(&[1; 8193], &mut [0; 9000]), refused(5));
}

/// The answer for element `element` of two schema files, and what is lost.
fn compared(old: &[u8], new: &[u8], element: u32, room: usize) -> (Compared, Vec<u32>) {
    let plain = Plain { keys: Keys::Pairs };
    let tables = [old, new].map(|file| {
        let mut table = vec![0; WORDS];
        plain.translate(file, &mut table);
        table
    });
    let mut sequence = vec![7; room];
    let said = plain.compare(&tables[0], &tables[1], element, &mut sequence);
    assert!(sequence[said.length as usize..].iter().all(|&place| place == 7));
    sequence.truncate(said.length as usize);
    (said, sequence)
}

#[test]
fn comparisons() {
    let said = |number, takes_all, length| Compared { number, takes_all, length };
    let other = file(&other_small_shade());
    assert_eq!(compared(&SCHEMA, &other, 0, PLACES), (said(0, 0, 3), vec![1, 1, 1]));
    assert_eq!(compared(&other, &SCHEMA, 0, PLACES), (said(0, 1, 0), vec![]));
    assert_eq!(compared(&SCHEMA, &other, 3, PLACES), (said(0, 1, 0), vec![]));
    assert_eq!(compared(&SCHEMA, &[0], 0, PLACES), (said(13, 0, 0), vec![]));
    assert_eq!(compared(&[0], &SCHEMA, 0, PLACES), (said(13, 0, 0), vec![]));
    assert_eq!(compared(&SCHEMA, &SCHEMA, 4, PLACES), (said(6, 0, 0), vec![]));
    assert_eq!(compared(&SCHEMA, &SCHEMA, 2, PLACES), (said(16, 0, 0), vec![]));
    assert_eq!(compared(&SCHEMA, &SCHEMA, 0, PLACES - 1), (said(5, 0, 0), vec![]));
    assert_eq!(compared(&file(&cycle(64)), &file(&cycle(63)), 0, PLACES), (said(0, 0, 64), vec![0; 64]));
}
