//! A case: one call with all that is lent to it, and what the paper says of it.

use crate::paper::dtd::{self, Spot};
use crate::paper::edits::{self, Answer, Edit};
use crate::paper::grammar::Grammar;
use crate::paper::groups::{self, Grouped};
use crate::paper::judgement::{self, Verdict};
use crate::paper::lists::{self, Listed};
use crate::paper::program::{self, Files};
use crate::paper::tally::{self, Tally, MIDDLE};
use crate::paper::{answer, compare, numbers, schema_file, table};
use crate::{edges, fixed_edges};
use std::rc::Rc;

/// A table to be lent. `grammar` is what it asks for, None if it is not proper; `schema` is the file it was translated from.
#[derive(Debug)]
pub struct Table {
    pub words: Vec<u64>,
    pub grammar: Option<Grammar>,
    pub schema: Option<Vec<u8>>,
}

impl Table {
    /// The table of a schema; its models are judged by their expressions.
    pub fn of_schema(grammar: Grammar) -> Table {
        let words = table::of(&grammar);
        let schema = numbers::file_of(&schema_file::numbers_of(&grammar));
        Table { words, grammar: Some(grammar), schema: Some(schema) }
    }

    /// Any table, judged by its words.
    pub fn of_words(words: Vec<u64>) -> Table {
        Table { grammar: table::grammar_of(&words), words, schema: None }
    }
}

/// A call and its inputs; `Imported` is two: what is imported, if it is, is translated. A `buffer`, of an edit, a list and a group the
/// document, of an edit the buffer for what takes it `back`, of a group the `second` one, and of a check, an edit and a list the counts are lent
/// for writing; all else only for reading. An edit that
/// steps back must `give` these tokens.
#[derive(Clone, Debug)]
pub enum Case {
    Read { file: Vec<u8>, buffer: Vec<u32> },
    Write { tokens: Vec<u32>, buffer: Vec<u8> },
    Translate { file: Vec<u8>, buffer: Vec<u64> },
    Import { text: Vec<u8>, buffer: Vec<u8> },
    Names { text: Vec<u8>, buffer: Vec<u8> },
    Spot { text: Vec<u8> },
    Imported { text: Vec<u8>, buffer: Vec<u64> },
    Check { table: Rc<Table>, doc: Vec<u32>, used: u64, counts: Tally },
    Edit { table: Rc<Table>, doc: Vec<u32>, used: u64, edit: Edit, back: Vec<u32>, counts: Tally, give: Option<Vec<u32>> },
    List { table: Rc<Table>, doc: Vec<u32>, used: u64, list: Vec<u32>, counts: Tally },
    Elements { table: Rc<Table>, counts: Tally, name: u32 },
    Group { table: Rc<Table>, doc: Vec<u32>, used: u64, list: Vec<u32>, second: Vec<u32> },
    Compare { old: Rc<Table>, new: Rc<Table>, element: u32, buffer: Vec<u32> },
    Program(Files),
}

/// What a call says.
#[derive(Clone, Debug, PartialEq)]
pub enum Said {
    Count { number: u32, count: u32 },
    Number(u32),
    Spot(Spot),
    Verdict(Verdict),
    Answer(Answer),
    Listed(Listed),
    Grouped(Grouped),
    Compared { number: u32, takes_all: u32, length: u32 },
    Printed(Vec<u8>),
}

/// The contents of lent memory.
#[derive(Clone, Debug, PartialEq)]
pub enum Memory {
    Bytes(Vec<u8>),
    Tokens(Vec<u32>),
    Words(Vec<u64>),
    Counts(Tally),
}

/// What holds after a call: what it says, and the memory lent for writing, in the order of the case. All other memory is as it was.
#[derive(Clone, Debug)]
pub struct Outcome {
    pub said: Said,
    pub after: Vec<Memory>,
    /// What is counted: the kinds of answer and their numbers.
    pub counted: Vec<(&'static str, u32)>,
}

impl Case {
    /// The outcome by the paper.
    pub fn outcome(&self) -> Outcome {
        match self {
            Case::Read { file, buffer } => {
                let (number, tokens) = split(numbers::read(file, buffer.len()));
                let after = vec![Memory::Tokens(over(buffer, &tokens))];
                outcome(Said::Count { number, count: tokens.len() as u32 }, after, "read", number)
            }
            Case::Write { tokens, buffer } => {
                let (number, bytes) = split(numbers::write(tokens, buffer.len()));
                let after = vec![Memory::Bytes(over(buffer, &bytes))];
                outcome(Said::Count { number, count: bytes.len() as u32 }, after, "write", number)
            }
            Case::Translate { file, buffer } => {
                let (number, words) = split(translate(file, buffer.len()));
                let mut outcome = outcome(Said::Number(number), vec![Memory::Words(over(buffer, &words))], "translate", number);
                outcome.counted.extend(fixed_edges::of_file(file, number));
                outcome
            }
            Case::Import { text, buffer } => {
                let (number, bytes) = split(dtd::import(text, buffer.len()));
                let after = vec![Memory::Bytes(over(buffer, &bytes))];
                outcome(Said::Count { number, count: bytes.len() as u32 }, after, "import", number)
            }
            Case::Names { text, buffer } => {
                let (number, bytes) = split(dtd::names(text, buffer.len()));
                let after = vec![Memory::Bytes(over(buffer, &bytes))];
                outcome(Said::Count { number, count: bytes.len() as u32 }, after, "names", number)
            }
            Case::Spot { text } => {
                let spot = dtd::spot(text);
                outcome(Said::Spot(spot), vec![], "import spot", spot.number)
            }
            Case::Imported { text, buffer } => {
                let (number, words) = split(dtd::grammar(text).map(|grammar| table::of(&grammar)));
                outcome(Said::Number(number), vec![Memory::Words(over(buffer, &words))], "import, translate", number)
            }
            Case::Check { table, doc, used, counts } => {
                let (verdict, counts) = judgement::check_counting(table.grammar.as_ref(), doc, *used, counts);
                let mut outcome = outcome(Said::Verdict(verdict), vec![Memory::Counts(counts)], "check", verdict.number);
                outcome.counted.extend(fixed_edges::of_table(&table.words, verdict.number));
                outcome.counted.extend(table.grammar.as_ref().and_then(|grammar| fixed_edges::of_check(grammar, doc, *used, verdict)));
                outcome
            }
            Case::Edit { table, doc, used, edit, back, counts, give } => {
                let after = edits::edit(table.grammar.as_ref(), doc, *used, edit, back, counts);
                let number = after.answer.number;
                let mut counted = vec![(operation_name(edit.operation), number)];
                if let (Some(grammar), Some(looked)) = (&table.grammar, &after.looked) {
                    let again = |back: &[u32]| edits::edit(Some(grammar), doc, *used, edit, back, &MIDDLE).answer.number;
                    counted.extend(edges::of(looked, edit, back, number, &again));
                    counted.extend(edges::of_counts(looked, grammar, back, counts, number, &again));
                    counted.extend(fixed_edges::of_set(grammar, doc, edit, number));
                }
                counted.extend(fixed_edges::of_table(&table.words, number));
                counted.extend(give.as_ref().map(|_| ("steps back", number)));
                let memory = vec![Memory::Tokens(after.doc), Memory::Tokens(after.back), Memory::Counts(after.counts)];
                Outcome { said: Said::Answer(after.answer), after: memory, counted }
            }
            Case::List { table, doc, used, list, counts } => {
                let ran = lists::list(table.grammar.as_ref(), doc, *used, list, counts);
                let counted = edges::of_list(list, &ran.listed);
                Outcome { said: Said::Listed(ran.listed), after: vec![Memory::Tokens(ran.doc), Memory::Counts(ran.counts)], counted }
            }
            Case::Elements { table, counts, name } => {
                let (number, count) = tally::elements(table.grammar.as_ref(), counts, *name);
                let counted = edges::of_question(table, *name, number);
                Outcome { said: Said::Count { number, count }, after: vec![], counted }
            }
            Case::Group { table, doc, used, list, second } => {
                let worked = groups::group(table.grammar.as_ref(), doc, *used, list, second);
                let counted = edges::of_group(list, doc, second, &worked);
                Outcome {
                    said: Said::Grouped(worked.grouped),
                    after: vec![Memory::Tokens(worked.doc), Memory::Tokens(worked.second)],
                    counted,
                }
            }
            Case::Compare { old, new, element, buffer } => {
                match compare::compare(old.grammar.as_ref(), new.grammar.as_ref(), *element, buffer.len()) {
                    Ok(None) => compared((0, 1), buffer, &[], "compare yes"),
                    Ok(Some(lost)) => compared((0, 0), buffer, &lost, "compare no"),
                    Err(number) => compared((number, 0), buffer, &[], "compare refused"),
                }
            }
            Case::Program(files) => {
                let printed = program::printed(files);
                Outcome { said: Said::Printed(printed.text.into_bytes()), after: vec![], counted: printed.lines }
            }
        }
    }
}

fn outcome(said: Said, after: Vec<Memory>, what: &'static str, number: u32) -> Outcome {
    Outcome { said, after, counted: vec![(what, number)] }
}

/// Number and yes or no, and the sequence over the front of the buffer.
fn compared((number, takes_all): (u32, u32), buffer: &[u32], sequence: &[u32], what: &'static str) -> Outcome {
    let said = Said::Compared { number, takes_all, length: sequence.len() as u32 };
    outcome(said, vec![Memory::Tokens(over(buffer, sequence))], what, number)
}

fn translate(file: &[u8], room: usize) -> Result<Vec<u64>, u32> {
    if room != table::WORDS {
        return Err(answer::TABLE);
    }
    Ok(table::of(&schema_file::read(file)?))
}

/// The answer number and what was made, nothing if refused.
fn split<T>(made: Result<Vec<T>, u32>) -> (u32, Vec<T>) {
    match made {
        Ok(made) => (answer::DONE, made),
        Err(number) => (number, Vec::new()),
    }
}

/// The buffer with `made` over its front.
fn over<T: Copy>(buffer: &[T], made: &[T]) -> Vec<T> {
    [made, &buffer[made.len()..]].concat()
}

/// The name under which an edit's answers are counted.
pub fn operation_name(operation: u32) -> &'static str {
    match operation {
        edits::INSERT => "insert",
        edits::REMOVE => "remove",
        edits::REPLACE => "replace",
        edits::SET => "set",
        edits::DROP => "drop",
        _ => "no operation",
    }
}
