//! Item 7, "How many panels?": the number of elements of each name, kept beside the document.

use super::answer::{COUNTS, DONE, TABLE};
use super::grammar::Grammar;
use super::table::BLOCKS;
use super::tree::Element;

/// "an array of 48 counts"
pub type Tally = [i32; BLOCKS];

/// Counts that no edit brings to an end of what is kept: a document has at most 4,096 elements.
pub const MIDDLE: Tally = [4_096; BLOCKS];

/// How many elements of a tree have each name below 48.
pub fn names(root: &Element) -> [i64; BLOCKS] {
    let mut names = [0; BLOCKS];
    root.each(&mut |element| {
        if let Some(count) = names.get_mut(usize::from(element.name)) {
            *count += 1;
        }
    });
    names
}

/// The true counts of a document: "Names of E and above are counted nowhere".
pub fn fresh(root: &Element, grammar: &Grammar) -> Tally {
    declared(&names(root), grammar)
}

/// Of the names below 48 those below E.
pub fn declared(names: &[i64; BLOCKS], grammar: &Grammar) -> Tally {
    let mut tally = [0; BLOCKS];
    for (name, count) in names.iter().enumerate().take(grammar.elements.len()) {
        tally[name] = *count as i32;
    }
    tally
}

/// The counts after an edit that moves so many elements of each name, those below E.
pub fn moved(tally: &Tally, change: &[i64; BLOCKS], grammar: &Grammar) -> [i64; BLOCKS] {
    let mut after = tally.map(i64::from);
    for (name, count) in after.iter_mut().enumerate().take(grammar.elements.len()) {
        *count += change[name];
    }
    after
}

/// The counts as they are kept; None for "any of the 48 counts below 0 or above 8,192".
pub fn kept(counts: &[i64; BLOCKS]) -> Option<Tally> {
    let fit = counts.iter().all(|count| (0..=8_192).contains(count));
    fit.then(|| counts.map(|count| count as i32))
}

/// The question: how many elements have a name. Number and count.
pub fn elements(grammar: Option<&Grammar>, tally: &Tally, name: u32) -> (u32, u32) {
    let grammar = match grammar {
        Some(grammar) => grammar,
        None => return (TABLE, 0),
    };
    match kept(&tally.map(i64::from)) {
        None => (COUNTS, 0),
        Some(tally) if (name as usize) < grammar.elements.len() => (DONE, tally[name as usize] as u32),
        Some(_) => (DONE, 0),
    }
}
