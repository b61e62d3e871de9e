//! How many elements of each name a document has: counted afresh, carried along, asked for.

use super::shape::{number, sort, START};
use super::table::{Table, ELEMENTS};
use super::TOKENS;
use crate::calls::Counts;

/// The counts of tokens; names that are not declared are counted nowhere.
pub fn fresh(table: Table, tokens: &[u32]) -> Counts {
    let mut counts = [0; ELEMENTS];
    for &token in tokens {
        if sort(token) == START && number(token) < table.elements() {
            counts[number(token) as usize] += 1;
        }
    }
    counts
}

/// The counts when some tokens went and others came; `None` if one is out of its range then.
pub fn moved(table: Table, counts: &Counts, went: &[u32], came: &[u32]) -> Option<Counts> {
    let (less, more) = (fresh(table, went), fresh(table, came));
    let mut moved = *counts;
    for name in 0..ELEMENTS {
        moved[name] = counts[name].checked_add(more[name] - less[name])?;
    }
    if are_good(&moved) {
        Some(moved)
    } else {
        None
    }
}

fn are_good(counts: &Counts) -> bool {
    counts.iter().all(|&count| (0..=TOKENS as i32).contains(&count))
}

pub fn elements(words: &[u64], counts: &Counts, name: u32) -> Result<u32, u32> {
    let table = Table::proper(words).ok_or(13u32)?;
    if !are_good(counts) {
        return Err(15);
    }
    Ok(if name < table.elements() { counts[name as usize] as u32 } else { 0 })
}
