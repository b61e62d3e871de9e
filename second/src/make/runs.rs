//! A run of edits of one document. Each edit that is done is taken back and made again, by what was read from the second buffer; in the end
//! the whole run is stepped back.

use super::{files, tallies};
use crate::case::{Case, Memory, Outcome, Said, Table};
use crate::paper::edits::{self, Edit, Looked, LONGEST_BACK};
use crate::paper::judgement;
use crate::paper::tally::MIDDLE;
use crate::random::Random;
use std::rc::Rc;

/// What a second buffer holds: an edit, to be judged by the table of the one it takes back, and the tokens that it must give. It owes none
/// if the document before was not valid.
struct Step {
    table: Rc<Table>,
    edit: Edit,
    give: Option<Vec<u32>>,
}

/// What an edit of the run is.
enum Turn {
    New,
    TakesBack,
    MakesAgain,
    StepsBack,
}

pub struct Run {
    pub buffer: Vec<u32>,
    pub used: u64,
    pub edits_left: usize,
    /// What the last case was.
    turn: Turn,
    /// The step that comes before any new edit.
    next: Option<Step>,
    /// Those that lead back to the first document, the last on top.
    steps: Vec<Step>,
    /// How many there were when stepping back began.
    length: usize,
}

impl Run {
    pub fn new(buffer: Vec<u32>, used: u64, edits_left: usize) -> Run {
        Run { buffer, used, edits_left, turn: Turn::New, next: None, steps: Vec::new(), length: 0 }
    }

    /// The case of the step that is due, if one is.
    pub fn step(&mut self, random: &mut Random) -> Option<Case> {
        let step = match self.next.take() {
            Some(step) => {
                self.turn = if let Turn::New = self.turn { Turn::TakesBack } else { Turn::MakesAgain };
                step
            }
            None if self.edits_left > 0 => return None,
            None => {
                if !matches!(self.turn, Turn::StepsBack) {
                    self.length = self.steps.len();
                }
                self.turn = Turn::StepsBack;
                self.steps.pop()?
            }
        };
        let looked = edits::looked(&self.buffer, self.used, &step.edit);
        let needed = looked.as_ref().map_or(3, |looked| looked.inverse.numbers().len());
        let more = if random.chance(50) { 0 } else { random.below(40) };
        let (doc, back) = (self.buffer.clone(), files::old_tokens(random, needed + more));
        // "item 2's way back read[s] true counts as a premise"
        let counts = tallies::truth(&step.table, looked.as_ref()).unwrap_or(MIDDLE);
        Some(Case::Edit { table: step.table, doc, used: self.used, edit: step.edit, back, counts, give: step.give })
    }

    /// The case of a new edit.
    pub fn edit(&mut self, random: &mut Random, table: Rc<Table>, used: u64, edit: Edit) -> Case {
        self.edits_left -= 1;
        self.turn = Turn::New;
        let doc = self.buffer.clone();
        let looked = edits::looked(&doc, used, &edit);
        let length = back_length(random, looked.as_ref());
        let back = files::old_tokens(random, length);
        let counts = tallies::lent(random, tallies::truth(&table, looked.as_ref()), looked.as_ref());
        Case::Edit { table, doc, used, edit, back, counts, give: None }
    }

    /// Goes on from the outcome of the last case. Gives the number of edits of a run that was stepped back whole.
    pub fn went(&mut self, case: &Case, outcome: &Outcome) -> Option<usize> {
        let (table, doc, used, give) = match case {
            Case::Edit { table, doc, used, give, .. } => (table, doc, *used, give),
            _ => return None,
        };
        let (after, back) = match (&outcome.said, &outcome.after[..]) {
            (Said::Answer(answer), [Memory::Tokens(after), Memory::Tokens(back), _]) if answer.number == 0 => {
                self.used = answer.used;
                (after, back)
            }
            _ => return None,
        };
        self.buffer = after.clone();
        let is_new = matches!(self.turn, Turn::New);
        let is_valid = if is_new { judgement::check(table.grammar.as_ref(), doc, used).number == 0 } else { give.is_some() };
        let give = is_valid.then(|| doc[..used as usize].to_vec());
        let step = Step { table: Rc::clone(table), edit: Edit::at_front(back), give };
        match self.turn {
            Turn::New => {
                if !is_valid {
                    self.steps.clear();
                }
                self.next = Some(step);
            }
            Turn::TakesBack if is_valid => self.next = Some(step),
            Turn::TakesBack => {}
            Turn::MakesAgain => self.steps.push(step),
            Turn::StepsBack => return self.steps.is_empty().then_some(self.length),
        }
        None
    }
}

/// The length of a second buffer: around what is needed.
fn back_length(random: &mut Random, looked: Option<&Looked>) -> usize {
    let needed = looked.map_or(random.below(12), |looked| looked.inverse.numbers().len());
    match random.below(40) {
        0..=3 => needed.saturating_sub(1),
        4 | 5 => random.below(4),
        6 => random.below(needed + 1),
        7..=19 => needed,
        20..=34 => needed + random.below(40),
        35 => LONGEST_BACK + random.below(900),
        _ => LONGEST_BACK,
    }
}
