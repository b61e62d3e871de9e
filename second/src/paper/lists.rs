//! Item 6, "One call for a script step": a list of edits, each of them a single call.

use super::answer::{DONE, ROOM, SHAPE};
use super::edits::{self, Answer, Edit, LONGEST_BACK};
use super::grammar::Grammar;
use super::tally::Tally;

/// "a list of 1 to 256 edits"
pub const MOST_EDITS: usize = 256;

#[derive(Clone, Copy, Debug, PartialEq)]
pub struct Listed {
    /// The answer of the last edit that was run.
    pub last: Answer,
    /// How many were done.
    pub done: u32,
}

/// What holds after a list: what is said, the document's buffer and the counts.
#[derive(Clone, Debug, PartialEq)]
pub struct Ran {
    pub listed: Listed,
    pub doc: Vec<u32>,
    pub counts: Tally,
}

/// The whole edits at the front of a list, up to 256, and what is left behind them.
pub fn front(list: &[u32]) -> (Vec<Edit>, &[u32]) {
    let (mut edits, mut rest) = (Vec::new(), list);
    while edits.len() < MOST_EDITS && rest.len() >= 3 && rest[2] as usize <= rest.len() - 3 {
        edits.push(Edit::at_front(rest));
        rest = &rest[3 + rest[2] as usize..];
    }
    (edits, rest)
}

/// The edits of a list. "a list that is empty or ends inside an edit is 4, a 257th edit begun is 5, the first met from the front"
pub fn edits_of(list: &[u32]) -> Result<Vec<Edit>, u32> {
    let (edits, rest) = front(list);
    match (edits.len(), rest) {
        (0, []) => Err(SHAPE),
        (_, []) => Ok(edits),
        (MOST_EDITS, _) => Err(ROOM),
        _ => Err(SHAPE),
    }
}

/// The numbers of a list of these edits.
pub fn numbers_of(edits: &[Edit]) -> Vec<u32> {
    edits.iter().flat_map(Edit::numbers).collect()
}

/// A list of edits of the document in a buffer: "It ends at the first refusal; what was done before stands."
pub fn list(grammar: Option<&Grammar>, buffer: &[u32], used: u64, list: &[u32], counts: &Tally) -> Ran {
    let (mut last, mut done, mut doc, mut counts) = (Answer::refused(DONE, 0, used), 0, buffer.to_vec(), *counts);
    match edits_of(list) {
        Err(number) => last.number = number,
        Ok(edits) => {
            // "Document, last answer and number of edits done are those of single calls", with room for their inverses.
            for edit in &edits {
                last = edits::in_place(grammar, &mut doc, last.used, edit, LONGEST_BACK, &mut counts).0;
                if last.number != DONE {
                    break;
                }
                done += 1;
            }
        }
    }
    Ran { listed: Listed { last, done }, doc, counts }
}
