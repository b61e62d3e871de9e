//! A script step: what is timed of it, and whether the contenders agree on it.

use bench::calls::{Answer, Calls, Counts, Edit, Listed};
use bench::plain::{spliced, BACK};
use bench::steps::{self, Step};
use std::rc::Rc;

use crate::cases::counts_of;
#[cfg(feature = "libxml2")]
use crate::libxml2::{
    changes::{text_of, Script, Validation},
    Tree,
};
use crate::report::Who;
use crate::timing::{from_outside, repeat, Job, Taken};

/// A step of a document, and the one that takes it back, which take turns on one buffer.
pub struct ListInput {
    pub table: Rc<Vec<u64>>,
    pub buffer: Vec<u32>,
    pub used: u64,
    pub step: Step,
    counts: Counts,
    lists: [Vec<u32>; 2],
    /// The document before and behind the step, as XML.
    #[cfg_attr(not(feature = "libxml2"), allow(dead_code))]
    pub texts: [String; 2],
}

/// Everything that both lists leave.
#[derive(PartialEq, Eq, Debug)]
pub struct Left {
    listed: [Listed; 2],
    buffers: [Vec<u32>; 2],
    counts: [Counts; 2],
}

impl ListInput {
    pub fn new(table: Rc<Vec<u64>>, buffer: Vec<u32>, used: u64, step: Step, texts: [String; 2]) -> ListInput {
        let lists = [steps::numbers(&step.there), steps::numbers(&step.back)];
        let counts = counts_of(&table, &buffer, used);
        ListInput { table, buffer, used, step, counts, lists, texts }
    }

    /// What both lists leave by a contender, if all edits are done and the step is taken back.
    pub fn left(&self, calls: &dyn Calls) -> Result<Left, String> {
        let (mut lent, mut counts) = (self.buffer.clone(), self.counts);
        let there = calls.list(&self.table, &mut lent, self.used, &self.lists[0], &mut counts);
        let (behind, counts_behind) = (lent.clone(), counts);
        let back = calls.list(&self.table, &mut lent, there.last.used, &self.lists[1], &mut counts);
        let is_step = behind[..there.last.used as usize] == self.step.tokens[..];
        if !is_step || [there, back].iter().any(|listed| !self.is_done(listed)) || lent != self.buffer {
            return Err(format!("{} does not make a list: {:?} {:?}", calls.name(), there, back));
        }
        let left = Left { listed: [there, back], buffers: [behind, lent], counts: [counts_behind, counts] };
        self.agrees_with_single_calls(calls, &left)?;
        Ok(left)
    }

    /// libxml2's tree behind the changes is that of the edited document, and all its validations say valid.
    #[cfg(feature = "libxml2")]
    pub fn agrees_with_libxml2(&self) -> bool {
        let mut script = Script::of(&self.texts[0], &self.buffer[..self.used as usize], &self.step.there);
        let due = Tree::parse(&self.texts[1]);
        script.text_behind() == text_of(&due) && [Validation::Whole, Validation::Parent].iter().all(|&by| script.there_and_back(by))
    }

    fn is_done(&self, listed: &Listed) -> bool {
        listed.last.number == 0 && listed.done as usize == self.step.there.len()
    }

    /// The contender's list leaves what its single calls leave.
    fn agrees_with_single_calls(&self, calls: &dyn Calls, left: &Left) -> Result<(), String> {
        let (mut buffer, mut used, mut noted, mut counts) = (self.buffer.clone(), self.used, vec![0; BACK], self.counts);
        for (k, edits) in [&self.step.there, &self.step.back].into_iter().enumerate() {
            let last = singly(calls, &self.table, &mut buffer, used, edits, &mut noted, &mut counts);
            used = last.used;
            let is_fresh = counts == counts_of(&self.table, &buffer, used);
            if last != left.listed[k].last || buffer != left.buffers[k] || counts != left.counts[k] || !is_fresh {
                return Err(format!("{}: a list and its single calls differ", calls.name()));
            }
        }
        Ok(())
    }

    /// Who is timed, and how: nanoseconds an edit. The plain version that compares IDs in pairs is left out.
    pub fn jobs<'a>(&'a self, core: &'a dyn Calls, field: &'a dyn Calls) -> Vec<(Who, Job<'a>)> {
        let mut jobs = vec![(Who::Core, self.job(core)), (Who::Field, self.job(field)), (Who::Single, self.single_job(core))];
        jobs.push((Who::Moving, self.moving_job()));
        #[cfg(feature = "libxml2")]
        for (who, by) in [(Who::Libxml2, Validation::Whole), (Who::Parent, Validation::Parent)] {
            let mut script = Script::of(&self.texts[0], &self.buffer[..self.used as usize], &self.step.there);
            let each = self.each();
            jobs.push((who, Box::new(move |count| each(repeat(count, || assert!(script.there_and_back(by)))))));
        }
        jobs
    }

    /// The time of both lists as that of an edit.
    fn each(&self) -> impl Fn(Taken) -> Taken {
        let edits = (self.step.there.len() + self.step.back.len()) as f64;
        move |taken| taken.map(|taken| taken / edits)
    }

    fn job<'a>(&'a self, calls: &'a dyn Calls) -> Job<'a> {
        let (mut buffer, mut used, mut counts, each) = (self.buffer.clone(), self.used, self.counts, self.each());
        Box::new(move |count| {
            each(repeat(count, || {
                for list in &self.lists {
                    let listed = calls.list(from_outside(&self.table[..]), &mut buffer, used, from_outside(&list[..]), &mut counts);
                    assert!(self.is_done(&listed));
                    used = listed.last.used;
                }
            }))
        })
    }

    fn single_job<'a>(&'a self, calls: &'a dyn Calls) -> Job<'a> {
        let (mut buffer, mut used, mut noted, each) = (self.buffer.clone(), self.used, vec![0; BACK], self.each());
        let mut counts = self.counts;
        Box::new(move |count| {
            each(repeat(count, || {
                for edits in [&self.step.there, &self.step.back] {
                    let last = singly(calls, from_outside(&self.table[..]), &mut buffer, used, edits, &mut noted, &mut counts);
                    assert_eq!(last.number, 0);
                    used = last.used;
                }
            }))
        })
    }

    fn moving_job(&self) -> Job<'_> {
        let (mut buffer, each) = (self.buffer.clone(), self.each());
        let moves = self.moves();
        Box::new(move |count| {
            each(repeat(count, || {
                for &(from, to, length) in from_outside(&moves[..]) {
                    buffer.copy_within(from..from + length, to);
                }
            }))
        })
    }

    /// For each edit from where to where, and how many tokens, are moved: those behind it.
    fn moves(&self) -> Vec<(usize, usize, usize)> {
        let mut before = self.buffer[..self.used as usize].to_vec();
        let mut moves = Vec::new();
        for edit in self.step.there.iter().chain(&self.step.back) {
            let after = spliced(&before, edit);
            if before.len() != after.len() {
                let tail = before.iter().rev().zip(after.iter().rev()).take_while(|(a, b)| a == b).count();
                let tail = tail.min(before.len() - edit.place as usize);
                moves.push((before.len() - tail, after.len() - tail, tail));
            }
            before = after;
        }
        moves
    }
}

/// Makes the edits, a call each: the answer of the last.
fn singly(
    calls: &dyn Calls,
    table: &[u64],
    buffer: &mut [u32],
    used: u64,
    edits: &[Edit],
    noted: &mut [u32],
    counts: &mut Counts,
) -> Answer {
    let mut last = Answer { number: 0, place: 0, used, change: 0, children: 0 };
    for edit in edits {
        last = calls.edit(table, buffer, last.used, edit.operation, edit.place, from_outside(&edit.piece[..]), noted, counts);
        assert_eq!(last.number, 0, "an edit of a step is done");
    }
    last
}
