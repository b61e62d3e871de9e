//! A host in Rust: loads a schema, a document and edits from the files of a folder, and says in words what comes of each; of an edit that
//! is done also how the length changed, and at how many children it looked; and each time how many panels there are. Then it takes back all
//! that were done, the last one first, and says whether the document is the first one again. Then it makes the edits of the file as a
//! script step, in one call, which ends at the first that is refused; and, of the first document, those that were done, and says whether
//! that gives the document of single edits.
//!
//!     cargo run -- ../../samples/small-shade
//!
//! Ends with 0 once every edit was tried and taken back, and with 1 if the library, a file, the schema or the document is refused, or if the
//! document is another one after the steps back or after the last list.
use shrikemuff::{library_version, numbers, read, serves, Counts, Edit, Refusal, Table, COUNT_PLACES, MOST_BACK, MOST_EDITS, MOST_TOKENS};
use std::fs::File;
use std::io::Read;
use std::path::Path;
use std::process::ExitCode;

/// A longer file is not read.
const MOST_FILE: usize = 65_536;

/// Loads a file of the folder; or says what stops the program.
fn load(folder: &Path, name: &str) -> Result<Vec<u8>, String> {
    let mut bytes = Vec::new();
    let read = File::open(folder.join(name)).and_then(|f| f.take(MOST_FILE as u64 + 1).read_to_end(&mut bytes));
    match read {
        Ok(n) if n <= MOST_FILE => Ok(bytes),
        _ => Err(format!("{name}: not to be read")),
    }
}

/// The next number of a file.
fn next(file: &mut &[u8]) -> Result<u32, Refusal> {
    let mut value = 0;
    for group in 0..3 {
        let (&byte, rest) = file.split_first().ok_or(Refusal::Broken)?;
        *file = rest;
        value |= u32::from(byte & 127) << (7 * group);
        if byte < 128 {
            return if group > 0 && byte == 0 { Err(Refusal::Broken) } else { Ok(value) };
        }
    }
    Err(Refusal::Broken)
}

/// One edit of the file: operation, place, piece count, piece. The piece goes into a vector.
fn next_edit<'a>(file: &mut &[u8], piece: &'a mut Vec<u32>) -> Result<Edit<'a>, Refusal> {
    let operation = next(file)?;
    let place = next(file)? as usize;
    let count = next(file)? as usize;
    if count > MOST_TOKENS {
        return Err(Refusal::Room);
    }
    piece.clear();
    for _ in 0..count {
        piece.push(next(file)?);
    }
    Ok(Edit { operation, place, piece })
}

/// The operation's name.
fn name(operation: u32) -> &'static str {
    match operation {
        numbers::INSERT => "insert",
        numbers::REMOVE => "remove",
        numbers::REPLACE => "replace",
        numbers::SET => "set",
        numbers::DROP => "drop",
        _ => "no operation",
    }
}

/// A document by its table.
struct Document {
    table: Table,
    tokens: Vec<u32>,
    used: usize,
    counts: Counts,
}

impl Document {
    /// Makes an edit, and says what comes of it: the edit that takes it back, if it is done.
    fn edit<'b>(&mut self, what: String, edit: Edit<'_>, back: &'b mut [u32]) -> Option<Edit<'b>> {
        let what = format!("{what}, {} at {}", name(edit.operation), edit.place);
        match self.table.edit(&mut self.tokens, self.used, edit, back, &mut self.counts) {
            Ok(done) => {
                self.used = done.used;
                println!("{what}: done, {} tokens, {:+}, looked at {}, {}", done.used, done.change, done.children, self.panels());
                Some(done.back)
            }
            Err(fault) => {
                println!("{what}: refused, {fault}, {} tokens, {}", self.used, self.panels());
                None
            }
        }
    }

    /// How many panels there are, in words: element 1 of the small shade.
    fn panels(&self) -> String {
        match self.table.elements(&self.counts, 1) {
            Ok(panels) => format!("panels: {panels}"),
            Err(refusal) => format!("panels: refused, {refusal}"),
        }
    }

    /// Makes the edits of a list, 256 in a call, up to one that is refused.
    fn script(&mut self, edits: &[Vec<u32>]) {
        let mut left = edits;
        loop {
            let (list, behind) = left.split_at(left.len().min(MOST_EDITS));
            left = behind;
            let listed = self.table.list(&mut self.tokens, self.used, &list.concat(), &mut self.counts);
            self.used = listed.used;
            let panels = self.panels();
            let what = format!("list of {} edits, {} done", list.len(), listed.done);
            match listed.last {
                Ok(last) => println!("{what}: done, {} tokens, {:+}, looked at {}, {panels}", self.used, last.change, last.children),
                Err(fault) => println!("{what}: refused, {fault}, {} tokens, {panels}", self.used),
            }
            if listed.last.is_err() || left.is_empty() {
                return;
            }
        }
    }

    /// The document as it is now.
    fn state(&self) -> State {
        (self.tokens[..self.used].to_vec(), self.counts)
    }

    /// Takes a document that was kept.
    fn again(&mut self, (tokens, counts): &State) {
        self.tokens[..tokens.len()].copy_from_slice(tokens);
        self.used = tokens.len();
        self.counts = *counts;
    }

    /// Whether the document is that one, and its counts are; and says so, or that it stops the program.
    fn is(&self, other: &State, which: &str) -> Result<(), String> {
        if self.state() != *other {
            return Err(format!("document: not {which}, {} tokens", self.used));
        }
        println!("document: {which}, {} tokens", self.used);
        Ok(())
    }

    /// Makes all edits of a file, and takes back those that were done, the last one first.
    fn there_and_back(&mut self, mut file: &[u8]) -> Result<Made, Refusal> {
        let mut made = Made { all: Vec::new(), done: Vec::new(), document: self.state() };
        let mut steps: Vec<(u32, Vec<u32>)> = Vec::new();
        let (mut piece, mut back) = (Vec::new(), vec![0; MOST_BACK]);
        let mut line = 0;
        while !file.is_empty() {
            line += 1;
            let edit = next_edit(&mut file, &mut piece)?;
            made.all.push(edit.numbers().collect());
            if let Some(step) = self.edit(format!("edit {line}"), edit, &mut back) {
                made.done.push(edit.numbers().collect());
                steps.push((line, step.numbers().collect()));
            }
        }
        made.document = self.state();
        while let Some((line, step)) = steps.pop() {
            let edit = Edit::read(&step).expect("the numbers of an edit");
            self.edit(format!("back from edit {line}"), edit, &mut back);
        }
        Ok(made)
    }
}

/// A document's tokens and counts.
type State = (Vec<u32>, Counts);

/// The edits of a file as numbers, all of them and those that were done, and the document after them.
struct Made {
    all: Vec<Vec<u32>>,
    done: Vec<Vec<u32>>,
    document: State,
}

/// Says what comes of everything; or what stops the program.
fn run(folder: &Path) -> Result<(), String> {
    let version = library_version();
    if !serves(version) {
        return Err(format!("library: refused, version {version}"));
    }
    let schema = load(folder, "schema.dat")?;
    let document = load(folder, "doc.dat")?;
    let edits = load(folder, "edits.dat")?;

    let table = Table::translate(&schema).map_err(|refusal| format!("schema: refused, {refusal}"))?;
    let mut tokens = vec![0; MOST_TOKENS];
    let used = read(&document, &mut tokens).map_err(|refusal| format!("document: refused, {refusal}"))?;
    let mut counts = [0; COUNT_PLACES];
    table.check(&tokens, used, &mut counts).map_err(|fault| format!("check: refused, {fault}, {used} tokens"))?;
    let mut document = Document { table, tokens, used, counts };
    println!("check: valid, {used} tokens, {}", document.panels());

    let first = document.state();
    let made = document.there_and_back(&edits).map_err(|refusal| format!("edits: refused, {refusal}"))?;
    document.is(&first, "the first one again")?;
    document.script(&made.all);
    document.again(&first);
    document.script(&made.done);
    document.is(&made.document, "that of single edits")
}

fn main() -> ExitCode {
    let words: Vec<_> = std::env::args_os().skip(1).collect();
    if words.len() != 1 {
        eprintln!("usage: shade FOLDER");
        return ExitCode::from(2);
    }
    match run(Path::new(&words[0])) {
        Ok(()) => ExitCode::SUCCESS,
        Err(stop) => {
            println!("{stop}");
            ExitCode::FAILURE
        }
    }
}
