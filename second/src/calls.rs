//! Runs a case: lends its memory, calls, and compares all with the outcome that the paper says.

use crate::memory::{bytes_of, Lender, Side};
use second::case::{Case, Memory, Outcome, Said};
use second::paper::dtd::Spot;
use second::paper::edits::Answer;
use second::paper::groups::Grouped;
use second::paper::judgement::Verdict;
use second::paper::lists::Listed;
use second::paper::program::Files;
use second::saved;
use shrikemuff::raw as library;
use std::fs;
use std::path::{Path, PathBuf};
use std::process::Command;

/// More bytes than a schema file has: two for each of 255 symbols, and 64 attributes of three numbers, 48 times.
const LONGEST_SCHEMA: usize = 65_536;

/// A piece of lent memory: its name, the width of its numbers, its bytes, and if it is lent for writing, which of the outcome's it is.
struct Lent<'a> {
    name: &'static str,
    width: usize,
    bytes: &'a [u8],
    after: Option<usize>,
}

/// Lent for reading.
fn lent<'a, T: Copy>(name: &'static str, numbers: &'a [T]) -> Lent<'a> {
    Lent { name, width: std::mem::size_of::<T>(), bytes: bytes_of(numbers), after: None }
}

/// Lent for writing.
fn written<'a, T: Copy>(name: &'static str, numbers: &'a [T], after: usize) -> Lent<'a> {
    Lent { after: Some(after), ..lent(name, numbers) }
}

/// The memory of a case.
fn memory_of(case: &Case) -> Vec<Lent<'_>> {
    match case {
        Case::Read { file, buffer } => vec![lent("file", file), written("buffer", buffer, 0)],
        Case::Write { tokens, buffer } => vec![lent("tokens", tokens), written("buffer", buffer, 0)],
        Case::Translate { file, buffer } => vec![lent("file", file), written("table", buffer, 0)],
        Case::Import { text, buffer } => vec![lent("text", text), written("file", buffer, 0)],
        Case::Names { text, buffer } => vec![lent("text", text), written("names", buffer, 0)],
        Case::Spot { text } => vec![lent("text", text)],
        Case::Imported { text, buffer } => vec![lent("text", text), written("table", buffer, 0)],
        Case::Check { table, doc, counts, .. } => {
            vec![lent("table", &table.words), lent("document", doc), written("counts", counts, 0)]
        }
        Case::Edit { table, doc, edit, back, counts, .. } => vec![
            lent("table", &table.words),
            written("document", doc, 0),
            lent("piece", &edit.piece),
            written("second buffer", back, 1),
            written("counts", counts, 2),
        ],
        Case::List { table, doc, list, counts, .. } => {
            vec![lent("table", &table.words), written("document", doc, 0), lent("list", list), written("counts", counts, 1)]
        }
        Case::Elements { table, counts, .. } => vec![lent("table", &table.words), lent("counts", counts)],
        Case::Group { table, doc, list, second, .. } => {
            vec![lent("table", &table.words), written("document", doc, 0), lent("list", list), written("second buffer", second, 1)]
        }
        Case::Compare { old, new, buffer, .. } => {
            vec![lent("old table", &old.words), lent("new table", &new.words), written("sequence", buffer, 0)]
        }
        Case::Program(_) => vec![],
    }
}

fn after_bytes(memory: &Memory) -> &[u8] {
    match memory {
        Memory::Bytes(bytes) => bytes,
        Memory::Tokens(tokens) => bytes_of(tokens),
        Memory::Words(words) => bytes_of(words),
        Memory::Counts(counts) => bytes_of(counts),
    }
}

/// Most pieces of memory that a call is lent.
const MOST_LENT: usize = 5;

/// What is called: the library, and the edit program if there is one.
pub struct Caller {
    lenders: Vec<Lender>,
    program: Option<PathBuf>,
    folder: PathBuf,
}

impl Caller {
    pub fn new(program: Option<PathBuf>) -> Caller {
        let folder = std::env::temp_dir().join(format!("second-{}", std::process::id()));
        Caller { lenders: (0..MOST_LENT).map(|_| Lender::new()).collect(), program, folder }
    }

    /// Runs a case; in words, all that differs from the outcome.
    pub fn compare(&mut self, case: &Case, sides: u8, expected: &Outcome) -> Vec<String> {
        let memory = memory_of(case);
        let mut at = [std::ptr::null_mut(); MOST_LENT];
        for (k, lent) in memory.iter().enumerate() {
            let side = if sides >> k & 1 == 1 { Side::Front } else { Side::End };
            at[k] = self.lenders[k].lend(lent.bytes, side);
        }
        let mut differences = Vec::new();
        let said = self.call(case, at);
        match &said {
            Ok(said) if *said == expected.said => {}
            Ok(said) => differences.push(format!("got {}", in_words(said))),
            Err(trouble) => differences.push(trouble.clone()),
        }
        for (k, lent) in memory.iter().enumerate() {
            let after = lent.after.map_or(lent.bytes, |after| after_bytes(&expected.after[after]));
            if let Some((byte, got)) = self.lenders[k].difference(after) {
                let (place, byte_of) = (byte / lent.width, byte % lent.width);
                let wanted = after[byte];
                differences.push(format!("{} place {place}, byte {byte_of} of it: expected {wanted}, got {got}", lent.name));
            }
            if let Some(byte) = self.lenders[k].outside() {
                differences.push(format!("written outside {}: byte {byte} from its begin", lent.name));
            }
        }
        if let Case::Edit { give: Some(tokens), .. } = case {
            let is_done = matches!(said, Ok(Said::Answer(answer)) if answer.number == 0 && answer.used == tokens.len() as u64);
            if !is_done || !self.lenders[1].begins_with(bytes_of(tokens)) {
                differences.push("the document before is not given back".to_string());
            }
        }
        differences
    }

    fn call(&self, case: &Case, at: [*mut u8; MOST_LENT]) -> Result<Said, String> {
        // Each pointer is that of a buffer just lent, of the length given.
        Ok(unsafe {
            match case {
                Case::Read { file, buffer } => {
                    let said = library::shrike_read(at[0], file.len(), at[1] as *mut u32, buffer.len());
                    Said::Count { number: said.number, count: said.count }
                }
                Case::Write { tokens, buffer } => {
                    let said = library::shrike_write(at[0] as *const u32, tokens.len(), at[1], buffer.len());
                    Said::Count { number: said.number, count: said.count }
                }
                Case::Translate { file, buffer } => {
                    Said::Number(library::shrike_translate(at[0], file.len(), at[1] as *mut u64, buffer.len()))
                }
                Case::Import { text, buffer } => {
                    let said = library::shrike_import(at[0], text.len(), at[1], buffer.len());
                    Said::Count { number: said.number, count: said.count }
                }
                Case::Names { text, buffer } => {
                    let said = library::shrike_names(at[0], text.len(), at[1], buffer.len());
                    Said::Count { number: said.number, count: said.count }
                }
                Case::Spot { text } => {
                    let said = library::shrike_import_spot(at[0], text.len());
                    Said::Spot(Spot { number: said.number, offset: said.offset })
                }
                Case::Imported { text, buffer } => {
                    let mut file = vec![0; LONGEST_SCHEMA];
                    let said = library::shrike_import(at[0], text.len(), file.as_mut_ptr(), file.len());
                    Said::Number(match said.number {
                        0 => library::shrike_translate(file.as_ptr(), said.count as usize, at[1] as *mut u64, buffer.len()),
                        number => number,
                    })
                }
                Case::Check { table, doc, used, .. } => {
                    let (words, room) = (table.words.len(), doc.len());
                    let said = library::shrike_check(at[0] as *const u64, words, at[1] as *const u32, room, *used, at[2] as *mut i32);
                    Said::Verdict(Verdict { number: said.number, place: said.place })
                }
                Case::Edit { table, doc, used, edit, back, .. } => {
                    let said = library::shrike_edit(
                        at[0] as *const u64,
                        table.words.len(),
                        at[1] as *mut u32,
                        doc.len(),
                        *used,
                        edit.operation,
                        edit.place,
                        at[2] as *const u32,
                        edit.piece.len(),
                        at[3] as *mut u32,
                        back.len(),
                        at[4] as *mut i32,
                    );
                    Said::Answer(answer(said))
                }
                Case::List { table, doc, used, list, .. } => {
                    let (words, room, n) = (table.words.len(), doc.len(), list.len());
                    let (table, doc, list, counts) = (at[0] as *const u64, at[1] as *mut u32, at[2] as *const u32, at[3] as *mut i32);
                    let said = library::shrike_list(table, words, doc, room, *used, list, n, counts);
                    Said::Listed(Listed { last: answer(said.last), done: said.done })
                }
                Case::Elements { table, name, .. } => {
                    let said = library::shrike_elements(at[0] as *const u64, table.words.len(), at[1] as *const i32, *name);
                    Said::Count { number: said.number, count: said.count }
                }
                Case::Group { table, doc, used, list, second } => {
                    let said = library::shrike_group(
                        at[0] as *const u64,
                        table.words.len(),
                        at[1] as *mut u32,
                        doc.len(),
                        *used,
                        at[2] as *const u32,
                        list.len(),
                        at[3] as *mut u32,
                        second.len(),
                    );
                    let library::Grouped { number, place, used, change, which } = said;
                    Said::Grouped(Grouped { number, place, used, change, which })
                }
                Case::Compare { old, new, element, buffer } => {
                    let said = library::shrike_compare(
                        at[0] as *const u64,
                        old.words.len(),
                        at[1] as *const u64,
                        new.words.len(),
                        *element,
                        at[2] as *mut u32,
                        buffer.len(),
                    );
                    Said::Compared { number: said.number, takes_all: said.takes_all, length: said.length }
                }
                Case::Program(files) => return self.run_program(files),
            }
        })
    }

    /// Runs the edit program in a fresh folder that holds its files.
    fn run_program(&self, files: &Files) -> Result<Said, String> {
        let program = self.program.as_ref().ok_or("no edit program is given (--program)")?;
        let printed = prepared(&self.folder, files).and_then(|()| Command::new(program).current_dir(&self.folder).output());
        let cleared = fs::remove_dir_all(&self.folder);
        let output = printed.map_err(|trouble| format!("the edit program cannot be run: {trouble}"))?;
        cleared.map_err(|trouble| format!("its folder cannot be removed: {trouble}"))?;
        match output.status.code() {
            Some(_) => Ok(Said::Printed(output.stdout)),
            None => Err(format!("the edit program ended by {}", output.status)),
        }
    }
}

fn answer(said: library::Answer) -> Answer {
    let library::Answer { number, place, used, change, children } = said;
    Answer { number, place, used, change, children }
}

fn prepared(folder: &Path, files: &Files) -> std::io::Result<()> {
    fs::create_dir(folder)?;
    saved::save_files(folder, files)
}

/// What was said, in words.
pub fn in_words(said: &Said) -> String {
    match said {
        Said::Count { number, count } => format!("number {number}, count {count}"),
        Said::Number(number) => format!("number {number}"),
        Said::Spot(spot) => format!("number {}, offset {}", spot.number, spot.offset),
        Said::Verdict(verdict) => format!("number {}, place {}", verdict.number, verdict.place),
        Said::Answer(answer) => answer_in_words(answer),
        Said::Listed(listed) => format!("{}, done {}", answer_in_words(&listed.last), listed.done),
        Said::Grouped(Grouped { number, place, used, change, which }) => {
            format!("number {number}, place {place}, used {used}, change {change}, which {which}")
        }
        Said::Compared { number, takes_all, length } => format!("number {number}, takes all {takes_all}, length {length}"),
        Said::Printed(text) => format!("{:?}", String::from_utf8_lossy(text)),
    }
}

fn answer_in_words(answer: &Answer) -> String {
    let Answer { number, place, used, change, children } = answer;
    format!("number {number}, place {place}, used {used}, change {change}, children {children}")
}
