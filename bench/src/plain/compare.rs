//! An element's content compared in two tables: a search through pairs of states, breadth first.

use super::table::{Element, State, Table, EMPTY, MODEL};

/// The least length of the sequence buffer: no shortest sequence is longer.
pub const PLACES: usize = STATES * (STATES + 1);
/// The start, and 64 occurrences. A run of the new content may also be lost.
const STATES: usize = 65;

/// A pair of states that was met, from which entry, and by which name.
struct Entry {
    old: State,
    new: Option<State>,
    from: usize,
    name: u32,
}

/// Nothing is lost, or the length of what is, which is written.
pub fn compare(old: &[u64], new: &[u64], element: u32, sequence: &mut [u32]) -> Result<Option<usize>, u32> {
    let old = Table::proper(old).ok_or(13u32)?;
    let new = Table::proper(new).ok_or(13u32)?;
    let (was, is) = (old.element(element).ok_or(6u32)?, new.element(element).ok_or(6u32)?);
    if [was, is].iter().any(|content| content.kind() != EMPTY && content.kind() != MODEL) {
        return Err(16);
    }
    if sequence.len() < PLACES {
        return Err(5);
    }
    Ok(lost(was, is, old.elements()).map(|names| {
        sequence[..names.len()].copy_from_slice(&names);
        names.len()
    }))
}

/// The shortest sequence that the old content takes and the new one does not, of equals the lowest.
fn lost(old: Element, new: Element, elements: u32) -> Option<Vec<u32>> {
    let mut seen = [false; PLACES];
    let mut entries = vec![Entry { old: State::Start, new: Some(State::Start), from: 0, name: 0 }];
    seen[number(State::Start, Some(State::Start))] = true;
    let mut head = 0;
    while head < entries.len() {
        let Entry { old: was, new: is, .. } = entries[head];
        if old.ends(was) && !is.map_or(false, |state| new.ends(state)) {
            return Some(names(&entries, head));
        }
        for name in 0..elements {
            if let Some(next) = old.next(was, name) {
                let beside = is.and_then(|state| new.next(state, name));
                let pair = number(next, beside);
                if !seen[pair] {
                    seen[pair] = true;
                    entries.push(Entry { old: next, new: beside, from: head, name });
                }
            }
        }
        head += 1;
    }
    None
}

fn number(old: State, new: Option<State>) -> usize {
    old.number() * (STATES + 1) + new.map_or(0, |state| 1 + state.number())
}

/// The names that led to an entry.
fn names(entries: &[Entry], mut entry: usize) -> Vec<u32> {
    let mut names = Vec::new();
    while entry > 0 {
        names.push(entries[entry].name);
        entry = entries[entry].from;
    }
    names.reverse();
    names
}
