//! Lists of edits: followed one by one up to a drawn answer, swinging to and fro up to 256 times, blind; and ones with a fault of their own.

use super::documents::Ground;
use super::programs::{aimed, drawn_until};
use super::{edits, faults, pieces};
use crate::paper::edits::{in_place, Answer, Edit, LONGEST_BACK};
use crate::paper::lists::{front, numbers_of, MOST_EDITS};
use crate::paper::tally::MIDDLE;
use crate::paper::{answer, tree};
use crate::random::Random;

/// The answers that the last edit of a list is to have, those that are rarely met more often.
const WANTED: [u32; 14] = [
    answer::DONE,
    answer::DONE,
    answer::SHAPE,
    answer::ROOM,
    answer::PLACE,
    answer::NAME,
    answer::NAME,
    answer::ATTRIBUTES,
    answer::CONTENT,
    answer::ROOT,
    answer::ROOT,
    answer::ID_TWICE,
    answer::ID_TWICE,
    answer::NO_ID,
];

/// The most numbers of a list: a field holds no more.
const MOST_NUMBERS: usize = 250_000;

/// A list for the document in a buffer.
pub fn list(random: &mut Random, ground: &Ground, buffer: &[u32], used: u64) -> Vec<u32> {
    let mut edits = match random.below(20) {
        0 | 1 => swings(random, ground, buffer, used),
        2 | 3 => blind(random, ground, buffer, used),
        _ => followed(random, ground, buffer, used),
    };
    if random.chance(10) {
        let at = if random.chance(50) { 0 } else { edits.len() };
        edits.insert(at, long(random, ground, used));
    }
    let mut list = numbers_of(&edits);
    if random.chance(25) {
        break_form(random, &mut list);
    }
    list
}

/// An edit of the document in a buffer with an answer, if one is soon found.
fn wanted(random: &mut Random, ground: &Ground, doc: &[u32], used: u64, number: u32) -> (Edit, Answer, Option<Edit>, Vec<u32>) {
    let root = tree::document(doc, used);
    let mut draw = |random: &mut Random| {
        let mut edit = match &root {
            Some(root) => aimed(random, ground, root, number),
            None => edits::blind(random, ground, doc.len()),
        };
        edit.place = u64::from(edit.place as u32);
        let mut doc = doc.to_vec();
        let (answer, looked) = in_place(Some(ground.grammar), &mut doc, used, &edit, LONGEST_BACK, &mut MIDDLE.clone());
        let inverse = looked.filter(|_| answer.number == answer::DONE).map(|looked| looked.inverse);
        (edit, answer, inverse, doc)
    };
    let tries = if used > 1_000 { 2 } else { 6 };
    drawn_until(random, tries, &mut draw, &|drawn| drawn.1.number == number)
}

/// Edits that are done if such are soon found, and at the end one with a drawn answer; now and then others behind it.
fn followed(random: &mut Random, ground: &Ground, buffer: &[u32], used: u64) -> Vec<Edit> {
    let most = match used {
        0..=100 => *random.pick(&[1, 1, 2, 3, 4, 8, 24]),
        101..=1_000 => *random.pick(&[1, 1, 2, 3, 6]),
        _ => *random.pick(&[1, 2]),
    };
    let (mut doc, mut used) = (buffer.to_vec(), used);
    let mut edits = Vec::new();
    for at in 1..=most {
        let number = if at == most { *random.pick(&WANTED) } else { answer::DONE };
        let (edit, answer, _, after) = wanted(random, ground, &doc, used, number);
        edits.push(edit);
        if answer.number != answer::DONE && (at == most || random.chance(30)) {
            break;
        }
        if answer.number != answer::DONE {
            edits.pop();
        }
        (doc, used) = (after, answer.used);
    }
    if edits.is_empty() || random.chance(25) {
        edits.extend(blind(random, ground, &doc, used));
    }
    edits
}

/// An edit that is done and the one that takes it back, in turn, up to 256 times; one of them may be another.
pub fn swings(random: &mut Random, ground: &Ground, buffer: &[u32], used: u64) -> Vec<Edit> {
    let (there, _, back, _) = wanted(random, ground, buffer, used, answer::DONE);
    let pair = match back {
        Some(back) => [there, back],
        None => [there.clone(), there],
    };
    let size = numbers_of(&pair).len();
    let most = match used {
        0..=200 => MOST_EDITS,
        201..=1_000 if random.chance(30) => MOST_EDITS,
        _ if random.chance(3) => MOST_EDITS,
        _ => 8,
    };
    let length = match random.chance(60) {
        true => most,
        false => random.within(1, most),
    };
    let mut edits: Vec<Edit> = pair.iter().cycle().take(length.min(MOST_NUMBERS / size)).cloned().collect();
    if random.chance(30) {
        let at = random.below(edits.len());
        edits[at].operation = random.below(8) as u32;
    }
    if random.chance(20) {
        let last = edits.len() - 1;
        edits[last].piece = faults::noise(random, 4);
    }
    edits
}

/// A few edits that are not looked at.
fn blind(random: &mut Random, ground: &Ground, buffer: &[u32], used: u64) -> Vec<Edit> {
    let root = tree::document(buffer, used);
    let count = random.within(1, 3);
    let mut draw = || match &root {
        Some(root) if used <= 1_000 => edits::edit(random, ground, root),
        _ => edits::blind(random, ground, buffer.len()),
    };
    (0..count).map(|_| draw()).filter(|edit| edit.piece.len() < 9_000).collect()
}

/// An edit whose piece is around or over 8,192 tokens.
fn long(random: &mut Random, ground: &Ground, used: u64) -> Edit {
    let operation = random.within(1, 5) as u32;
    let (name, attribute) = (faults::name(random, ground.grammar), random.below(64) as u16);
    Edit { operation, place: 0, piece: pieces::long(random, operation, name, attribute, used.min(8_192) as usize) }
}

/// Brings a list to an end inside an edit, to nothing, or past 256 edits.
fn break_form(random: &mut Random, list: &mut Vec<u32>) {
    let filler = match front(list).0.first() {
        Some(edit) if edit.piece.len() < 60 => edit.numbers(),
        _ => vec![2, 1, 0],
    };
    let fill = |list: &mut Vec<u32>, edits: usize| {
        let have = front(list).0.len();
        if list.len() < MOST_NUMBERS / 2 {
            (have..edits).for_each(|_| list.extend(&filler));
        }
    };
    match random.below(10) {
        0 => list.clear(),
        1 | 2 => list.truncate(random.below(list.len() + 1)),
        3 | 4 => {
            let last = front(list).0.last().map_or(0, |edit| edit.numbers().len());
            let at = list.len().saturating_sub(last) + 2;
            let more = *random.pick(&[1, 1, 2, 255, 1 << 31, u32::MAX]);
            if at < list.len() {
                list[at] = list[at].checked_add(more).unwrap_or(u32::MAX);
            }
        }
        5 => fill(list, MOST_EDITS + 1),
        6 => fill(list, MOST_EDITS + random.within(2, 40)),
        7 => {
            fill(list, MOST_EDITS);
            list.extend(&filler[..random.within(1, filler.len() - 1)]);
        }
        8 => fill(list, random.within(MOST_EDITS - 1, MOST_EDITS)),
        _ => list.extend((0..random.within(1, 2)).map(|_| 0)),
    }
}
