//! The edit program: what it prints for its three files.

use super::answer::{BROKEN, DONE, ROOM};
use super::edits::{self, Edit, LONGEST_BACK};
use super::table::BLOCKS;
use super::{judgement, numbers, schema_file, MOST_TOKENS};

pub const LONGEST_FILE: usize = 65_536;

/// The contents of schema.dat, doc.dat and edits.dat; None for a file that is not there.
#[derive(Clone, Debug, PartialEq)]
pub struct Files {
    pub schema: Option<Vec<u8>>,
    pub doc: Option<Vec<u8>>,
    pub edits: Option<Vec<u8>>,
}

/// The text printed, and for each line what it is and its answer number.
#[derive(Default)]
pub struct Printed {
    pub text: String,
    pub lines: Vec<(&'static str, u32)>,
}

impl Printed {
    fn line(&mut self, line: usize, number: u32, place: u32, used: u64) {
        self.text += &format!("{line} {number} {place} {used}\n");
        self.lines.push((if line == 0 { "program check" } else { "program edit" }, number));
    }

    fn stop(&mut self, what: &'static str, number: u32) {
        self.text += &format!("stop {number}\n");
        self.lines.push((what, number));
    }
}

pub fn printed(files: &Files) -> Printed {
    let mut printed = Printed::default();
    if let Err((what, number)) = run(files, &mut printed) {
        printed.stop(what, number);
    }
    printed
}

fn run(files: &Files, printed: &mut Printed) -> Result<(), (&'static str, u32)> {
    let schema = opened(&files.schema)?;
    let doc = opened(&files.doc)?;
    let mut rest = opened(&files.edits)?;
    let grammar = schema_file::read(schema).map_err(|number| ("program stop schema", number))?;
    let mut buffer = numbers::read(doc, MOST_TOKENS).map_err(|number| ("program stop document", number))?;
    let mut used = buffer.len() as u64;
    buffer.resize(MOST_TOKENS, 0);
    let (verdict, mut counts) = judgement::check_counting(Some(&grammar), &buffer, used, &[0; BLOCKS]);
    printed.line(0, verdict.number, verdict.place, used);
    if verdict.number != DONE {
        return Ok(());
    }
    let mut line = 0;
    while !rest.is_empty() {
        let edit = next_edit(&mut rest).map_err(|number| ("program stop edits", number))?;
        let (answer, _) = edits::in_place(Some(&grammar), &mut buffer, used, &edit, LONGEST_BACK, &mut counts);
        line += 1;
        printed.line(line, answer.number, answer.place, answer.used);
        used = answer.used;
    }
    Ok(())
}

fn opened(file: &Option<Vec<u8>>) -> Result<&[u8], (&'static str, u32)> {
    match file {
        None => Err(("program stop missing", ROOM)),
        Some(file) if file.len() > LONGEST_FILE => Err(("program stop long", ROOM)),
        Some(file) => Ok(file),
    }
}

fn next_edit(rest: &mut &[u8]) -> Result<Edit, u32> {
    let mut next = || {
        let (number, bytes) = numbers::number(rest).map_err(|_| BROKEN)?;
        *rest = &rest[bytes..];
        Ok(number)
    };
    let operation = next()?;
    let place = u64::from(next()?);
    let count = next()?;
    if count as usize > MOST_TOKENS {
        return Err(ROOM);
    }
    let piece = (0..count).map(|_| next()).collect::<Result<Vec<u32>, u32>>()?;
    Ok(Edit { operation, place, piece })
}
