//! Counts to be lent: true ones, ones at an end of what is kept after an edit, and any numbers.

use crate::case::Table;
use crate::paper::edits::Looked;
use crate::paper::grammar::Grammar;
use crate::paper::table::BLOCKS;
use crate::paper::tally::{self, Tally, MIDDLE};
use crate::paper::{lists, tree};
use crate::random::Random;

/// The true counts of the document that an edit in form is of, if the table is proper.
pub fn truth(table: &Table, looked: Option<&Looked>) -> Option<Tally> {
    Some(tally::declared(&looked?.before, table.grammar.as_ref()?))
}

/// Any numbers, those at the ends of an `i32` too.
pub fn any(random: &mut Random) -> Tally {
    let mut number = || match random.below(5) {
        0 => random.bits() as i32,
        1 => *random.pick(&[i32::MIN, i32::MIN + 1, i32::MAX - 1, i32::MAX]),
        2 => *random.pick(&[-1, 0, 1, 8_191, 8_192, 8_193]),
        _ => random.below(8_193) as i32,
    };
    let mut tally = [number(); BLOCKS];
    tally.iter_mut().for_each(|count| *count = number());
    tally
}

/// Counts that are kept, one of them perhaps not.
fn within(random: &mut Random) -> Tally {
    let mut tally = [0; BLOCKS];
    tally.iter_mut().for_each(|count| *count = random.below(8_193) as i32);
    if random.chance(30) {
        *one(random, &mut tally) = *random.pick(&[-1, 8_193, i32::MIN, i32::MAX]);
    }
    tally
}

fn one<'a>(random: &mut Random, tally: &'a mut Tally) -> &'a mut i32 {
    let name = match random.chance(60) {
        true => random.below(6),
        false => random.below(BLOCKS),
    };
    &mut tally[name]
}

/// Counts that have nothing to do with a document.
pub fn alone(random: &mut Random) -> Tally {
    match random.chance(30) {
        true => any(random),
        false => within(random),
    }
}

/// Counts for an edit: mostly true. Some stand so that after the edit one of them is at an end, or one past it.
pub fn lent(random: &mut Random, truth: Option<Tally>, looked: Option<&Looked>) -> Tally {
    let mut tally = truth.unwrap_or([0; BLOCKS]);
    match random.below(24) {
        0 => any(random),
        1 => within(random),
        2 => {
            *one(random, &mut tally) = *random.pick(&[-1, 8_192, 8_193, i32::MIN, i32::MAX]);
            tally
        }
        3 | 4 => {
            let moved = looked.map_or([0; BLOCKS], |looked| looked.moved);
            at_end(random, tally, &moved)
        }
        _ => tally,
    }
}

/// Counts for a list: true, or such that one is at an end, or one past it, after what can be done of the list; or any.
pub fn for_list(random: &mut Random, grammar: Option<&Grammar>, doc: &[u32], used: u64, list: &[u32]) -> Tally {
    let (grammar, root) = match (grammar, tree::document(doc, used)) {
        (Some(grammar), Some(root)) if random.chance(90) => (grammar, root),
        _ => return alone(random),
    };
    let tally = tally::fresh(&root, grammar);
    if random.chance(75) {
        return tally;
    }
    let after = lists::list(Some(grammar), doc, used, list, &MIDDLE).counts;
    let moved = after.map(|count| i64::from(count) - i64::from(MIDDLE[0]));
    at_end(random, tally, &moved)
}

/// The counts with one that is at an end, or one past it, after what is moved; mostly one that is moved.
fn at_end(random: &mut Random, mut tally: Tally, moved: &[i64; BLOCKS]) -> Tally {
    let name = (0..BLOCKS).find(|name| moved[*name] != 0 && random.chance(70)).unwrap_or_else(|| random.below(BLOCKS));
    let after = match moved[name] {
        0 => *random.pick(&[-1, 0, 8_192, 8_193]),
        count if count < 0 => *random.pick(&[-1, -1, 0]),
        _ => *random.pick(&[8_192, 8_193]),
    };
    tally[name] = (after - moved[name]) as i32;
    tally
}
