//! Item 9, "Rename a panel": a group of edits, worked on a second lent buffer and judged at its end.

use super::answer::{DONE, ROOM, SHAPE, TABLE};
use super::edits::{self, Edit};
use super::grammar::Grammar;
use super::tree::{self, Element};
use super::{judgement, lists};

#[derive(Clone, Copy, Debug, PartialEq)]
pub struct Grouped {
    pub number: u32,
    pub place: u32,
    pub used: u64,
    pub change: i32,
    /// Which edit was refused, from 1; else 0.
    pub which: u32,
}

/// What holds after a group: what is said, and both buffers.
#[derive(Clone, Debug, PartialEq)]
pub struct Worked {
    pub grouped: Grouped,
    pub doc: Vec<u32>,
    pub second: Vec<u32>,
    /// The longest document reached, the starting one included; 0 if no edit has begun.
    pub longest: usize,
}

/// A group of edits of the document in a buffer.
pub fn group(grammar: Option<&Grammar>, buffer: &[u32], used: u64, list: &[u32], second: &[u32]) -> Worked {
    let (mut doc, mut second) = (buffer.to_vec(), second.to_vec());
    let mut grouped = Grouped { number: DONE, place: 0, used, change: 0, which: 0 };
    let mut longest = 0;
    match worked(grammar, &mut doc, used, list, &mut second, &mut longest) {
        Ok(length) => {
            grouped.used = length as u64;
            grouped.change = (length as i64 - used as i64) as i32;
        }
        Err((number, place, which)) => (grouped.number, grouped.place, grouped.which) = (number, place, which),
    }
    Worked { grouped, doc, second, longest }
}

/// Works in both buffers. The length of the document at the end; or number and place, and which edit was refused.
fn worked(
    grammar: Option<&Grammar>,
    doc: &mut [u32],
    used: u64,
    list: &[u32],
    second: &mut [u32],
    longest: &mut usize,
) -> Result<usize, (u32, u32, u32)> {
    let before = |number| (number, 0, 0);
    let grammar = grammar.ok_or(before(TABLE))?;
    let mut root = tree::document(doc, used).ok_or(before(SHAPE))?;
    let edits = lists::edits_of(list).map_err(before)?;
    if second.len() < doc.len() {
        return Err(before(ROOM));
    }
    let refused = reached(&mut root, &edits, doc.len(), longest);
    // "The second buffer ends with the last document reached, 0 up to the longest reached (the starting one included), then its old contents"
    let tokens = root.tokens();
    second[..*longest].fill(0);
    second[..tokens.len()].copy_from_slice(&tokens);
    if let Some(refused) = refused {
        return Err(refused);
    }
    // "only the last document is judged, whole"
    root.touch_all();
    let verdict = judgement::judge(&root, grammar);
    if verdict.number != DONE {
        return Err((verdict.number, verdict.place, 0));
    }
    // "Then it is copied back, with 0 up to the old length"
    doc[..used as usize].fill(0);
    doc[..tokens.len()].copy_from_slice(&tokens);
    Ok(tokens.len())
}

/// Does the edits on a tree up to the first that is refused: "Each edit is tested for form, place and size (the first buffer's) in turn".
fn reached(root: &mut Element, edits: &[Edit], room: usize, longest: &mut usize) -> Option<(u32, u32, u32)> {
    *longest = root.size();
    for (i, edit) in edits.iter().enumerate() {
        let mut next = root.clone();
        if let Err(number) = edits::changed(&mut next, edit, room) {
            return Some((number, 0, i as u32 + 1));
        }
        *root = next;
        *longest = root.size().max(*longest);
    }
    None
}
