//! What is timed: inputs, how each contender runs them, and whether the contenders agree.

use bench::calls::{Answer, Calls, Compared, Count, Counts, Edit, Spot, Verdict};
use bench::plain::{Keys, Plain, BACK, PLACES, WORDS};
use std::rc::Rc;

use crate::groups::{self, GroupInput};
#[cfg(feature = "libxml2")]
use crate::libxml2;
use crate::lists::{Left, ListInput};
use crate::report::{Who, WHO};
use crate::timing::{from_outside, repeat, repeat_pair, Job};

/// The most bytes of a schema file that is made of a DTD's text.
const FILE: usize = 21_650;

/// One input. Tables are shared; a buffer is the document and the places after it.
#[cfg_attr(not(feature = "libxml2"), allow(dead_code))]
pub enum Input {
    /// A check that answers `number`. `text`: the same document as XML, where libxml2 is to judge it too.
    Check {
        table: Rc<Vec<u64>>,
        buffer: Vec<u32>,
        used: u64,
        number: u32,
        text: Option<String>,
    },
    /// An edit that is done and the one that takes it back. `texts`: the document after each of them.
    Pair {
        table: Rc<Vec<u64>>,
        buffer: Vec<u32>,
        used: u64,
        edit: Edit,
        back: Edit,
        texts: [String; 2],
    },
    /// An edit that is refused.
    Refused {
        table: Rc<Vec<u64>>,
        buffer: Vec<u32>,
        used: u64,
        edit: Edit,
        number: u32,
    },
    Read {
        file: Vec<u8>,
        tokens: usize,
    },
    Write {
        tokens: Vec<u32>,
    },
    Translate {
        file: Vec<u8>,
    },
    /// A DTD's text that is imported, or refused with `number`. `taken`: libxml2 takes it too.
    Import {
        text: Vec<u8>,
        number: u32,
        taken: bool,
    },
    /// Element 0 of two tables: the length of what is lost, if anything is.
    Compare {
        old: Vec<u64>,
        new: Vec<u64>,
        lost: Option<usize>,
    },
    /// The question for the elements of a name, which has `count`.
    Elements {
        table: Rc<Vec<u64>>,
        counts: Counts,
        name: u32,
        count: u32,
    },
    /// A list of edits that are all done, and the one that takes it back.
    List(ListInput),
    /// A group of edits that is done, and the one that takes it back.
    Group(GroupInput),
    /// From the files of schema and document to a judged document: translate, read and check; `text` is both as XML.
    Load {
        schema: Vec<u8>,
        file: Vec<u8>,
        tokens: usize,
        text: String,
    },
}

/// Everything that a run of an input leaves: answers and lent memory.
#[derive(PartialEq, Eq, Debug, Default)]
struct Outcome {
    numbers: Vec<u32>,
    counts: Vec<Count>,
    verdicts: Vec<Verdict>,
    answers: Vec<Answer>,
    compared: Vec<Compared>,
    spots: Vec<Spot>,
    tokens: Vec<Vec<u32>>,
    bytes: Vec<u8>,
    table: Vec<u64>,
    left: Option<Left>,
    grouped: Option<groups::Left>,
    elements: Vec<Counts>,
}

/// What is lent where a check is to write counts.
const NO_COUNTS: Counts = [-7; 48];

/// The counts of a valid document.
pub fn counts_of(table: &[u64], buffer: &[u32], used: u64) -> Counts {
    let mut counts = NO_COUNTS;
    let verdict = Plain { keys: Keys::Field }.check(table, buffer, used, &mut counts);
    assert_eq!(verdict.number, 0, "a document whose elements are counted is valid");
    counts
}

fn edit(calls: &dyn Calls, table: &[u64], buffer: &mut [u32], used: u64, edit: &Edit, back: &mut [u32], counts: &mut Counts) -> Answer {
    calls.edit(table, buffer, used, edit.operation, edit.place, from_outside(&edit.piece[..]), back, counts)
}

impl Input {
    /// Every contender gives the same answers and leaves the same memory, and the answer is the one expected.
    pub fn agree(&self, contenders: &[&dyn Calls]) -> Result<(), String> {
        let outcome = self.outcome(contenders[0])?;
        for other in &contenders[1..] {
            if self.outcome(*other)? != outcome {
                return Err(format!("{} and {} differ", contenders[0].name(), other.name()));
            }
        }
        self.agree_with_libxml2()
    }

    #[cfg(feature = "libxml2")]
    fn agree_with_libxml2(&self) -> Result<(), String> {
        let agrees = match self {
            Input::Check { text: Some(text), number, .. } => libxml2::Tree::parse(text).is_valid() == (*number == 0),
            Input::Pair { texts, .. } => texts.iter().all(|text| libxml2::Tree::parse(text).is_valid()),
            Input::Load { text, .. } => libxml2::load(text),
            Input::Import { text, taken: true, .. } => libxml2::import(text),
            Input::List(input) => input.agrees_with_libxml2(),
            Input::Group(input) => input.agrees_with_libxml2(),
            _ => true,
        };
        if agrees {
            Ok(())
        } else {
            Err("libxml2 judges the document otherwise".to_string())
        }
    }

    #[cfg(not(feature = "libxml2"))]
    fn agree_with_libxml2(&self) -> Result<(), String> {
        Ok(())
    }

    fn outcome(&self, calls: &dyn Calls) -> Result<Outcome, String> {
        let mut outcome = Outcome::default();
        let expected = match self {
            Input::Check { table, buffer, used, number, .. } => {
                let mut counts = NO_COUNTS;
                outcome.verdicts.push(calls.check(table, buffer, *used, &mut counts));
                outcome.elements.push(counts);
                outcome.verdicts[0].number == *number
            }
            Input::Pair { table, buffer, used, edit: there, back, .. } => {
                let (mut lent, mut noted) = (buffer.clone(), [vec![7; BACK], vec![7; BACK]]);
                let mut counts = counts_of(table, buffer, *used);
                let done = edit(calls, table, &mut lent, *used, there, &mut noted[0], &mut counts);
                outcome.tokens.push(lent.clone());
                outcome.elements.push(counts);
                let undone = edit(calls, table, &mut lent, done.used, back, &mut noted[1], &mut counts);
                outcome.elements.push(counts);
                outcome.answers.extend([done, undone]);
                outcome.tokens.push(lent);
                outcome.tokens.extend(noted);
                done.number == 0
                    && undone.number == 0
                    && outcome.tokens[1] == *buffer
                    && outcome.elements[0] == counts_of(table, &outcome.tokens[0], done.used)
                    && outcome.elements[1] == counts_of(table, buffer, *used)
            }
            Input::Refused { table, buffer, used, edit: refused, number } => {
                let (mut lent, mut noted) = (buffer.clone(), vec![7; BACK]);
                let mut counts = counts_of(table, buffer, *used);
                outcome.answers.push(edit(calls, table, &mut lent, *used, refused, &mut noted, &mut counts));
                outcome.elements.push(counts);
                outcome.tokens.extend([lent, noted]);
                outcome.answers[0].number == *number && outcome.tokens[0] == *buffer
            }
            Input::Read { file, tokens } => {
                let mut lent = vec![7; tokens + 3];
                outcome.counts.push(calls.read(file, &mut lent));
                outcome.tokens.push(lent);
                outcome.counts[0] == Count { number: 0, count: *tokens as u32 }
            }
            Input::Write { tokens } => {
                let mut lent = vec![7; 3 * tokens.len() + 3];
                outcome.counts.push(calls.write(tokens, &mut lent));
                outcome.bytes = lent;
                outcome.counts[0].number == 0
            }
            Input::Translate { file } => {
                let mut lent = vec![7; WORDS];
                outcome.numbers.push(calls.translate(file, &mut lent));
                outcome.table = lent;
                outcome.numbers[0] == 0
            }
            Input::Import { text, number, .. } => {
                let mut lent = vec![7; FILE + text.len()];
                let (file, names) = lent.split_at_mut(FILE);
                outcome.counts.extend([calls.import(text, file), calls.names(text, names)]);
                outcome.spots.push(calls.import_spot(text));
                outcome.bytes = lent;
                outcome.counts.iter().all(|count| count.number == *number) && outcome.spots[0].number == *number
            }
            Input::Compare { old, new, lost } => {
                let mut lent = vec![7; PLACES + 3];
                outcome.compared.push(calls.compare(old, new, 0, &mut lent));
                outcome.tokens.push(lent);
                outcome.compared[0] == compared(*lost)
            }
            Input::Elements { table, counts, name, count } => {
                outcome.counts.push(calls.elements(table, counts, *name));
                outcome.counts[0] == Count { number: 0, count: *count }
            }
            Input::List(input) => {
                outcome.left = Some(input.left(calls)?);
                true
            }
            Input::Group(input) => {
                outcome.grouped = Some(input.left(calls)?);
                true
            }
            Input::Load { schema, file, tokens, .. } => {
                let (mut table, mut buffer) = (vec![7; WORDS], vec![7; *tokens]);
                outcome.verdicts.push(load(calls, schema, file, &mut table, &mut buffer));
                outcome.table = table;
                outcome.tokens.push(buffer);
                outcome.verdicts[0].number == 0
            }
        };
        if expected {
            Ok(outcome)
        } else {
            Err(format!("{} gives an answer that is not the one expected: {:?}", calls.name(), outcome.summary()))
        }
    }

    /// Who is timed on the input, and how.
    pub fn jobs<'a>(&'a self, contenders: &[&'a dyn Calls; 3]) -> Vec<(Who, Job<'a>)> {
        if let Input::List(input) = self {
            return input.jobs(contenders[0], contenders[2]);
        }
        let jobs = contenders.iter().map(|calls| self.job(*calls)).chain(self.libxml2_job());
        WHO.into_iter().zip(jobs).collect()
    }

    /// The input as a job of a contender.
    fn job<'a>(&'a self, calls: &'a dyn Calls) -> Job<'a> {
        match self {
            Input::List(_) => unreachable!("a list has jobs of its own"),
            Input::Group(input) => input.job(calls),
            Input::Check { table, buffer, used, number, .. } => {
                let mut counts = NO_COUNTS;
                Box::new(move |count| {
                    repeat(count, || {
                        let verdict = calls.check(from_outside(&table[..]), from_outside(&buffer[..]), *used, &mut counts);
                        assert_eq!(verdict.number, *number)
                    })
                })
            }
            Input::Pair { table, buffer, used, edit: there, back, .. } => {
                let mut state = (buffer.clone(), *used, vec![0; BACK], counts_of(table, buffer, *used));
                let step = move |(buffer, used, noted, counts): &mut (Vec<u32>, u64, Vec<u32>, Counts), step: &Edit| {
                    let answer = edit(calls, from_outside(&table[..]), buffer, *used, step, noted, counts);
                    assert_eq!(answer.number, 0);
                    *used = answer.used;
                };
                Box::new(move |count| repeat_pair(count, &mut state, |state| step(state, there), |state| step(state, back)))
            }
            Input::Refused { table, buffer, used, edit: refused, number } => {
                let (mut buffer, mut noted, mut counts) = (buffer.clone(), vec![0; BACK], counts_of(table, buffer, *used));
                Box::new(move |count| {
                    repeat(count, || {
                        let answer = edit(calls, from_outside(&table[..]), &mut buffer, *used, refused, &mut noted, &mut counts);
                        assert_eq!(answer.number, *number);
                    })
                })
            }
            Input::Read { file, tokens } => {
                let mut lent = vec![0; *tokens];
                Box::new(move |count| repeat(count, || assert_eq!(calls.read(from_outside(&file[..]), &mut lent).number, 0)))
            }
            Input::Write { tokens } => {
                let mut lent = vec![0; 3 * tokens.len()];
                Box::new(move |count| repeat(count, || assert_eq!(calls.write(from_outside(&tokens[..]), &mut lent).number, 0)))
            }
            Input::Translate { file } => {
                let mut lent = vec![0; WORDS];
                Box::new(move |count| repeat(count, || assert_eq!(calls.translate(from_outside(&file[..]), &mut lent), 0)))
            }
            Input::Import { text, number, .. } => {
                let mut lent = vec![0; FILE];
                Box::new(move |count| repeat(count, || assert_eq!(calls.import(from_outside(&text[..]), &mut lent).number, *number)))
            }
            Input::Compare { old, new, lost } => {
                let mut lent = vec![0; PLACES];
                Box::new(move |count| {
                    repeat(count, || {
                        assert_eq!(calls.compare(from_outside(&old[..]), from_outside(&new[..]), 0, &mut lent), compared(*lost))
                    })
                })
            }
            Input::Elements { table, counts, name, count: elements } => Box::new(move |count| {
                repeat(count, || assert_eq!(calls.elements(from_outside(&table[..]), from_outside(counts), *name).count, *elements))
            }),
            Input::Load { schema, file, tokens, .. } => {
                let (mut table, mut buffer) = (vec![0; WORDS], vec![0; *tokens]);
                Box::new(move |count| {
                    repeat(count, || assert_eq!(load(calls, from_outside(&schema[..]), file, &mut table, &mut buffer).number, 0))
                })
            }
        }
    }

    /// The input as a job of libxml2, where there is a counterpart.
    #[cfg(feature = "libxml2")]
    fn libxml2_job(&self) -> Option<Job<'_>> {
        match self {
            Input::Check { text: Some(text), number, .. } => {
                let tree = libxml2::Tree::parse(text);
                Some(Box::new(move |count| repeat(count, || assert_eq!(tree.is_valid(), *number == 0))))
            }
            Input::Pair { texts: [there, back], .. } => {
                let mut trees = [libxml2::Tree::parse(there), libxml2::Tree::parse(back)];
                let step = |trees: &mut [libxml2::Tree; 2], k: usize| assert!(trees[k].is_valid());
                Some(Box::new(move |count| repeat_pair(count, &mut trees, |trees| step(trees, 0), |trees| step(trees, 1))))
            }
            Input::Load { text, .. } => Some(Box::new(move |count| repeat(count, || assert!(libxml2::load(text))))),
            Input::Group(input) => Some(input.libxml2_job()),
            Input::Import { text, taken: true, .. } => Some(Box::new(move |count| repeat(count, || assert!(libxml2::import(text))))),
            _ => None,
        }
    }

    #[cfg(not(feature = "libxml2"))]
    fn libxml2_job(&self) -> Option<Job<'_>> {
        None
    }
}

impl Outcome {
    fn summary(&self) -> (&[u32], &[Count], &[Verdict], &[Answer], &[Compared]) {
        (&self.numbers, &self.counts, &self.verdicts, &self.answers, &self.compared)
    }
}

fn compared(lost: Option<usize>) -> Compared {
    Compared { number: 0, takes_all: lost.is_none() as u32, length: lost.unwrap_or(0) as u32 }
}

fn load(calls: &dyn Calls, schema: &[u8], file: &[u8], table: &mut [u64], buffer: &mut [u32]) -> Verdict {
    let number = calls.translate(schema, table);
    if number != 0 {
        return Verdict { number, place: 0 };
    }
    let read = calls.read(file, buffer);
    if read.number != 0 {
        return Verdict { number: read.number, place: 0 };
    }
    calls.check(table, buffer, u64::from(read.count), &mut NO_COUNTS.clone())
}
