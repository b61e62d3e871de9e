//! Answers from lines of numbers, by this program alone: for another program that makes cases of its own.
//!
//! `schema BYTES` and `table WORDS` choose the table and are answered by nothing. `check USED | DOCUMENT | COUNTS` is answered by number and
//! place, `edit USED OPERATION PLACE | DOCUMENT | PIECE | BACK | COUNTS` by the numbers of the answer and both buffers after it,
//! `list USED | DOCUMENT | LIST | COUNTS` by the numbers of the last answer, the edits done and the buffer after it; the counts after it
//! stand last, `|` before each. `elements NAME | COUNTS` is answered by number and count, `group USED | DOCUMENT | LIST | SECOND` by the
//! numbers of the answer and both buffers after it.

use second::case::{Case, Memory, Outcome, Said, Table};
use second::paper::edits::{Answer, Edit};
use second::paper::schema_file;
use second::paper::tally::Tally;
use std::io::{stdin, stdout, BufRead, BufWriter, Error, ErrorKind, Result, Write};
use std::rc::Rc;
use std::str::FromStr;

/// Answers each line of the standard input.
pub fn answers() -> Result<()> {
    let mut table = Rc::new(Table::of_words(Vec::new()));
    let mut out = BufWriter::new(stdout().lock());
    for line in stdin().lock().lines() {
        let line = line?;
        let (what, numbers) = line.split_once(' ').unwrap_or((&line, ""));
        let parts: Vec<&str> = numbers.split('|').collect();
        match (what, &parts[..]) {
            ("schema", [bytes]) => table = Rc::new(of_schema(&list::<u8>(bytes)?)?),
            ("table", [words]) => table = Rc::new(Table::of_words(list(words)?)),
            ("check", [used, doc, counts]) => {
                let case = Case::Check { table: Rc::clone(&table), doc: list(doc)?, used: one(list(used)?)?, counts: tally(counts)? };
                writeln!(out, "{}", in_numbers(&case.outcome()))?;
            }
            ("edit", [head, doc, piece, back, counts]) => {
                let (used, operation, place) = match list::<u64>(head)?[..] {
                    [used, operation, place] => (used, operation as u32, place),
                    _ => return Err(bad()),
                };
                let edit = Edit { operation, place, piece: list(piece)? };
                let (doc, back, counts) = (list(doc)?, list(back)?, tally(counts)?);
                let case = Case::Edit { table: Rc::clone(&table), doc, used, edit, back, counts, give: None };
                writeln!(out, "{}", in_numbers(&case.outcome()))?;
            }
            ("list", [used, doc, numbers, counts]) => {
                let (doc, used, list, counts) = (list(doc)?, one(list(used)?)?, list(numbers)?, tally(counts)?);
                let case = Case::List { table: Rc::clone(&table), doc, used, list, counts };
                writeln!(out, "{}", in_numbers(&case.outcome()))?;
            }
            ("group", [used, doc, numbers, second]) => {
                let (doc, used, list, second) = (list(doc)?, one(list(used)?)?, list(numbers)?, list(second)?);
                let case = Case::Group { table: Rc::clone(&table), doc, used, list, second };
                writeln!(out, "{}", in_numbers(&case.outcome()))?;
            }
            ("elements", [name, counts]) => {
                let case = Case::Elements { table: Rc::clone(&table), counts: tally(counts)?, name: one(list(name)?)? as u32 };
                writeln!(out, "{}", in_numbers(&case.outcome()))?;
            }
            _ => return Err(bad()),
        }
    }
    out.flush()
}

fn of_schema(file: &[u8]) -> Result<Table> {
    schema_file::read(file).map(Table::of_schema).map_err(|_| bad())
}

fn in_numbers(outcome: &Outcome) -> String {
    match (&outcome.said, &outcome.after[..]) {
        (Said::Count { number, count }, _) => format!("{number} {count}"),
        (Said::Verdict(said), [Memory::Counts(counts)]) => format!("{} {} | {}", said.number, said.place, spaced(counts)),
        (Said::Answer(said), [Memory::Tokens(doc), Memory::Tokens(back), Memory::Counts(counts)]) => {
            format!("{} | {} | {} | {}", of_answer(said), spaced(doc), spaced(back), spaced(counts))
        }
        (Said::Listed(said), [Memory::Tokens(doc), Memory::Counts(counts)]) => {
            format!("{} {} | {} | {}", of_answer(&said.last), said.done, spaced(doc), spaced(counts))
        }
        (Said::Grouped(said), [Memory::Tokens(doc), Memory::Tokens(second)]) => {
            let head = format!("{} {} {} {} {}", said.number, said.place, said.used, said.change, said.which);
            format!("{head} | {} | {}", spaced(doc), spaced(second))
        }
        _ => unreachable!("no other call is asked"),
    }
}

fn of_answer(said: &Answer) -> String {
    format!("{} {} {} {} {}", said.number, said.place, said.used, said.change, said.children)
}

fn spaced<T: ToString>(numbers: &[T]) -> String {
    let numbers: Vec<String> = numbers.iter().map(T::to_string).collect();
    numbers.join(" ")
}

fn list<T: FromStr>(text: &str) -> Result<Vec<T>> {
    text.split_whitespace().map(|number| number.parse().map_err(|_| bad())).collect()
}

fn tally(text: &str) -> Result<Tally> {
    Tally::try_from(list(text)?).map_err(|_| bad())
}

fn one(numbers: Vec<u64>) -> Result<u64> {
    match numbers[..] {
        [number] => Ok(number),
        _ => Err(bad()),
    }
}

fn bad() -> Error {
    Error::new(ErrorKind::InvalidData, "a line that is no case")
}
