//! Item 12, "Will the new schema take our old patterns?": all pairs of states that sequences of names lead to, then the way to the nearest
//! pair at which a sequence is lost.

use super::answer::{KIND, PLACE, ROOM, TABLE};
use super::grammar::{Content, Grammar};
use std::collections::HashMap;

/// The fewest places for a lost sequence.
pub const LEAST_ROOM: usize = 4_290;

/// The answer: the lost sequence, None if all is taken; or the number of the refusal.
pub type Compared = Result<Option<Vec<u32>>, u32>;

/// Compares an element's content in two tables; without a grammar a table is not proper.
pub fn compare(old: Option<&Grammar>, new: Option<&Grammar>, element: u32, room: usize) -> Compared {
    let (old, new) = (old.ok_or(TABLE)?, new.ok_or(TABLE)?);
    let declared = |grammar: &'_ Grammar| (element as usize) < grammar.elements.len();
    if !declared(old) || !declared(new) {
        return Err(PLACE);
    }
    let (old, new) = (&old.elements[element as usize].content, &new.elements[element as usize].content);
    if matches!(old, Content::Text) || matches!(new, Content::Text) {
        return Err(KIND);
    }
    if room < LEAST_ROOM {
        return Err(ROOM);
    }
    Ok(lost(old, new))
}

/// What is left of a content: a state, None if nothing can follow that would be taken.
type State = Option<usize>;

/// The state after one more name. State 0 is the begin.
fn step(content: &Content, state: State, name: u16) -> State {
    match content {
        Content::Empty | Content::Text => None,
        Content::Model(model) => model.step(state?, name),
        Content::Run(run) => run.step(state?, name),
    }
}

/// The names with which a content goes on, rising.
fn names(content: &Content, state: State) -> Vec<u16> {
    match (content, state) {
        (Content::Model(model), Some(state)) => model.names(state),
        (Content::Run(run), Some(state)) => run.names_after(state),
        _ => vec![],
    }
}

/// Whether a sequence that leads here is taken.
fn is_taken(content: &Content, state: State) -> bool {
    match (content, state) {
        (_, None) | (Content::Text, _) => false,
        (Content::Empty, Some(_)) => true,
        (Content::Model(model), Some(state)) => model.may_end(state),
        (Content::Run(run), Some(state)) => run.may_end(state),
    }
}

/// All pairs that sequences lead to, on which the old one may go on.
struct Pairs {
    pairs: Vec<(State, State)>,
    /// For each pair, the names that lead on, rising, and where they lead.
    next: Vec<Vec<(u16, usize)>>,
}

fn pairs(old: &Content, new: &Content) -> Pairs {
    let begin = (Some(0), Some(0));
    let mut known = HashMap::from([(begin, 0)]);
    let mut found = Pairs { pairs: vec![begin], next: Vec::new() };
    while found.next.len() < found.pairs.len() {
        let (one, two) = found.pairs[found.next.len()];
        let mut next = Vec::new();
        for name in names(old, one) {
            let pair = (step(old, one, name), step(new, two, name));
            let number = *known.entry(pair).or_insert(found.pairs.len());
            if number == found.pairs.len() {
                found.pairs.push(pair);
            }
            next.push((name, number));
        }
        found.next.push(next);
    }
    found
}

/// For each pair the fewest names to one at which a sequence is lost; None if there is none.
fn distances(found: &Pairs, is_lost: &dyn Fn(usize) -> bool) -> Vec<Option<usize>> {
    let mut before = vec![Vec::new(); found.pairs.len()];
    for (from, next) in found.next.iter().enumerate() {
        for (_, to) in next {
            before[*to].push(from);
        }
    }
    let mut distances = vec![None; found.pairs.len()];
    let mut reached: Vec<usize> = (0..found.pairs.len()).filter(|pair| is_lost(*pair)).collect();
    let mut distance = 0;
    while !reached.is_empty() {
        reached.retain(|pair| distances[*pair].is_none());
        for pair in &reached {
            distances[*pair] = Some(distance);
        }
        reached = reached.iter().flat_map(|pair| before[*pair].clone()).collect();
        reached.sort_unstable();
        reached.dedup();
        distance += 1;
    }
    distances
}

/// The shortest sequence that the old content takes and the new one does not, of equals the lowest from the left.
fn lost(old: &Content, new: &Content) -> Option<Vec<u32>> {
    let found = pairs(old, new);
    let is_lost = |pair: usize| is_taken(old, found.pairs[pair].0) && !is_taken(new, found.pairs[pair].1);
    let distances = distances(&found, &is_lost);
    let mut left = distances[0]?;
    let mut at = 0;
    let mut sequence = Vec::new();
    while left > 0 {
        left -= 1;
        let nearer = found.next[at].iter().find(|(_, to)| distances[*to] == Some(left));
        let (name, to) = nearer.expect("a pair that is nearer");
        sequence.push(u32::from(*name));
        at = *to;
    }
    Some(sequence)
}
