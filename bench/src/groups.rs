//! A group of edits: what is timed of it, and whether the contenders agree on it.

use bench::calls::{Calls, Grouped};
use bench::steps::{self, Step};
use std::rc::Rc;

#[cfg(feature = "libxml2")]
use crate::libxml2::changes::Script;
use crate::timing::{from_outside, repeat, Job, Taken};

/// A group of edits of a document, and the one that takes it back, which take turns on one buffer.
pub struct GroupInput {
    table: Rc<Vec<u64>>,
    buffer: Vec<u32>,
    used: u64,
    step: Step,
    lists: [Vec<u32>; 2],
    /// The document, as XML.
    #[cfg_attr(not(feature = "libxml2"), allow(dead_code))]
    text: String,
}

/// Everything that both groups leave.
#[derive(PartialEq, Eq, Debug)]
pub struct Left {
    grouped: [Grouped; 2],
    buffers: [Vec<u32>; 4],
}

impl GroupInput {
    pub fn new(table: Rc<Vec<u64>>, buffer: Vec<u32>, used: u64, step: Step, text: String) -> GroupInput {
        let lists = [steps::numbers(&step.there), steps::numbers(&step.back)];
        GroupInput { table, buffer, used, step, lists, text }
    }

    /// What both groups leave by a contender, if they are done and the document is as before in the end.
    pub fn left(&self, calls: &dyn Calls) -> Result<Left, String> {
        let (mut lent, mut second) = (self.buffer.clone(), vec![7; self.buffer.len() + 3]);
        let there = calls.group(&self.table, &mut lent, self.used, &self.lists[0], &mut second);
        let (behind, second_behind) = (lent.clone(), second.clone());
        let back = calls.group(&self.table, &mut lent, there.used, &self.lists[1], &mut second);
        let is_step = there.number == 0 && behind[..there.used as usize] == self.step.tokens[..];
        if !is_step || back.number != 0 || back.used != self.used || lent[..self.used as usize] != self.buffer[..self.used as usize] {
            return Err(format!("{} does not make a group: {:?} {:?}", calls.name(), there, back));
        }
        Ok(Left { grouped: [there, back], buffers: [behind, second_behind, lent, second] })
    }

    /// libxml2 finds the document valid behind the changes, and as before in the end.
    #[cfg(feature = "libxml2")]
    pub fn agrees_with_libxml2(&self) -> bool {
        self.script().there_and_back_as_groups()
    }

    pub fn job<'a>(&'a self, calls: &'a dyn Calls) -> Job<'a> {
        let (mut buffer, mut second, mut used) = (self.buffer.clone(), vec![0; self.buffer.len()], self.used);
        Box::new(move |count| {
            half(repeat(count, || {
                for list in &self.lists {
                    let grouped = calls.group(from_outside(&self.table[..]), &mut buffer, used, from_outside(&list[..]), &mut second);
                    assert_eq!(grouped.number, 0);
                    used = grouped.used;
                }
            }))
        })
    }

    #[cfg(feature = "libxml2")]
    pub fn libxml2_job(&self) -> Job<'_> {
        let mut script = self.script();
        Box::new(move |count| half(repeat(count, || assert!(script.there_and_back_as_groups()))))
    }

    #[cfg(feature = "libxml2")]
    fn script(&self) -> Script {
        Script::of(&self.text, &self.buffer[..self.used as usize], &self.step.there)
    }
}

/// The time of both groups as that of one.
fn half(taken: Taken) -> Taken {
    taken.map(|taken| taken / 2.0)
}
