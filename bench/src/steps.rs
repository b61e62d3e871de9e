//! Script steps: small edits spread over a document, and those that take them back.

use crate::calls::{Calls, Counts, Edit, DROP, INSERT, REMOVE, REPLACE, SET};
use crate::documents::{Dice, Mix};
use crate::plain::{spliced, Keys, Plain, BACK};

/// The edits of a step in turn: the document is never more than one item longer than at first.
const TURN: [u32; 5] = [INSERT, REMOVE, SET, DROP, REPLACE];
const PLAIN: Plain = Plain { keys: Keys::Field };
/// Counts that no edit brings out of their range.
const ANY_COUNTS: Counts = [4000; 48];

/// Edits that are all done, in this order, and what takes them back, in that order.
pub struct Step {
    pub there: Vec<Edit>,
    pub back: Vec<Edit>,
    /// The document behind the edits.
    pub tokens: Vec<u32>,
}

impl Step {
    /// So many edits of a valid document, as evenly spread as its items allow, in no order of places. The buffer has `room` places.
    pub fn spread(mix: Mix, table: &[u64], tokens: &[u32], room: usize, count: usize) -> Step {
        let mut step = Step { there: Vec::new(), back: Vec::new(), tokens: tokens.to_vec() };
        for (k, spot) in shuffled(count).into_iter().enumerate() {
            let from = (2 * spot + 1) * step.tokens.len() / (2 * count);
            step.add(mix, table, room, k, from);
        }
        step.back.reverse();
        step
    }

    /// Sets of values of attributes that are there, which need not be valid one by one.
    pub fn of_sets(tokens: &[u32], there: Vec<Edit>) -> Step {
        let mut step = Step { there: Vec::new(), back: Vec::new(), tokens: tokens.to_vec() };
        for edit in there {
            let after = spliced(&step.tokens, &edit);
            let changed = (0..after.len()).find(|&place| after[place] != step.tokens[place]).expect("another value");
            let piece = vec![edit.piece[0], step.tokens[changed]];
            step.back.push(Edit { piece, ..edit });
            step.there.push(edit);
            step.tokens = after;
        }
        step.back.reverse();
        step
    }

    /// The k-th edit, at the first place from `from` on, and then from the front, at which it is done.
    fn add(&mut self, mix: Mix, table: &[u64], room: usize, k: usize, from: usize) {
        let length = self.tokens.len();
        let operation = TURN[k % TURN.len()];
        for place in (from..length).chain(0..from) {
            if let Some(piece) = mix.small_piece(&self.tokens, place, operation, k as u32) {
                if self.make(table, room, Edit { operation, place: place as u64, piece }) {
                    return;
                }
            }
        }
        panic!("{} has no place for edit {} of a step", mix.name(), k);
    }

    /// Makes an edit: whether it is done.
    fn make(&mut self, table: &[u64], room: usize, edit: Edit) -> bool {
        let (mut buffer, mut back) = (self.tokens.clone(), vec![0; BACK]);
        buffer.resize(room, 0);
        let used = self.tokens.len() as u64;
        let answer = PLAIN.edit(table, &mut buffer, used, edit.operation, edit.place, &edit.piece, &mut back, &mut ANY_COUNTS.clone());
        if answer.number != 0 {
            return false;
        }
        buffer.truncate(answer.used as usize);
        self.tokens = buffer;
        let piece = back[3..3 + back[2] as usize].to_vec();
        self.back.push(Edit { operation: back[0], place: u64::from(back[1]), piece });
        self.there.push(edit);
        true
    }
}

/// The numbers of a list of edits.
pub fn numbers(edits: &[Edit]) -> Vec<u32> {
    edits.iter().flat_map(|edit| edit.numbers()).collect()
}

/// The numbers below `count` in an order as if by chance.
fn shuffled(count: usize) -> Vec<usize> {
    let mut dice = Dice::new(256);
    let mut numbers: Vec<usize> = (0..count).collect();
    for k in (1..count).rev() {
        numbers.swap(k, dice.below(k as u32 + 1) as usize);
    }
    numbers
}
