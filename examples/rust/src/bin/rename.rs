//! A host in Rust that renames a panel: in the document of a folder, an ID and all that refers to it get another number. Each step alone is
//! refused, since it leaves a reference to no ID; all of them as one group are done. It says in words what comes of each step, on the
//! document as it was, and of the group, and then checks the document, which writes its counts anew.
//!
//!     cargo run --bin rename -- ../../samples/small-shade 20 21
//!
//! Ends with 0 if the group is done, and with 1 if the library, a file, the schema, the document or the group is refused.
use shrikemuff::{library_version, numbers, read, serves, token, Edit, Table, COUNT_PLACES, MOST_TOKENS};
use std::fs::File;
use std::io::Read;
use std::path::Path;
use std::process::ExitCode;

/// A longer file is not read.
const MOST_FILE: usize = 65_536;

/// Loads a file of the folder; or says what stops the program.
fn load(folder: &Path, name: &str) -> Result<Vec<u8>, String> {
    let mut bytes = Vec::new();
    let read = File::open(folder.join(name)).and_then(|f| f.take(MOST_FILE as u64 + 1).read_to_end(&mut bytes));
    match read {
        Ok(n) if n <= MOST_FILE => Ok(bytes),
        _ => Err(format!("{name}: not to be read")),
    }
}

/// Whether an attribute of an element is an ID or refers to one: it is in one of three sets of the element's block in the table.
fn is_key(table: &Table, element: u32, attribute: u32) -> bool {
    let block = &table.words()[numbers::BLOCKS_AT + element as usize * numbers::BLOCK_WORDS..];
    let keys = block[numbers::ID_AT] | block[numbers::IDREF_AT] | block[numbers::IDREFS_AT];
    attribute < numbers::MOST_ATTRIBUTES as u32 && keys >> attribute & 1 == 1
}

/// The steps of a rename: each sets an attribute to the values that it has, with `to` for `from`. Nothing gets longer: places stay.
fn rename_steps(table: &Table, tokens: &[u32], from: u16, to: u16) -> Vec<Vec<u32>> {
    let mut steps = Vec::new();
    let mut start = 0;
    for (at, &here) in tokens.iter().enumerate() {
        if token::sort(here) == numbers::START {
            start = at;
        }
        if token::sort(here) != numbers::ATTRIBUTE || !is_key(table, token::number(tokens[start]), token::number(here)) {
            continue;
        }
        let values = tokens[at + 1..].iter().take_while(|&&value| token::sort(value) == numbers::VALUE);
        if values.clone().any(|&value| value == token::value(from)) {
            let renamed = values.map(|&value| if value == token::value(from) { token::value(to) } else { value });
            let piece: Vec<u32> = std::iter::once(here).chain(renamed).collect();
            steps.push(Edit::set(start, &piece).numbers().collect());
        }
    }
    steps
}

/// Checks the document, and says what comes of it; or that it stops the program.
fn check(table: &Table, tokens: &[u32], used: usize) -> Result<(), String> {
    let mut counts = [0; COUNT_PLACES];
    table.check(tokens, used, &mut counts).map_err(|fault| format!("check: refused, {fault}, {used} tokens"))?;
    println!("check: valid, {used} tokens");
    Ok(())
}

/// Says what comes of everything; or what stops the program.
fn run(folder: &Path, from: u16, to: u16) -> Result<(), String> {
    let version = library_version();
    if !serves(version) {
        return Err(format!("library: refused, version {version}"));
    }
    let table = Table::translate(&load(folder, "schema.dat")?).map_err(|refusal| format!("schema: refused, {refusal}"))?;
    let mut tokens = vec![0; MOST_TOKENS];
    let used = read(&load(folder, "doc.dat")?, &mut tokens).map_err(|refusal| format!("document: refused, {refusal}"))?;
    check(&table, &tokens, used)?;

    let steps = rename_steps(&table, &tokens[..used], from, to);
    let mut second = vec![0; MOST_TOKENS];
    for step in &steps {
        let said = match table.group(&mut tokens.clone(), used, step, &mut second) {
            Ok(_) => "done".to_string(),
            Err(fault) => format!("refused, {}", fault.fault),
        };
        println!("set at {} alone: {said}", step[1]);
    }
    let what = format!("{from} becomes {to}, group of {}", steps.len());
    let done = table.group(&mut tokens, used, &steps.concat(), &mut second);
    let done = done.map_err(|fault| format!("{what}: refused, {fault}, {used} tokens"))?;
    println!("{what}: done, {} tokens, {:+}", done.used, done.change);
    check(&table, &tokens, done.used)
}

/// The number of a value, if the argument is one.
fn number(word: Option<&String>) -> Option<u16> {
    word?.parse().ok()
}

fn main() -> ExitCode {
    let words: Vec<String> = std::env::args().skip(1).collect();
    let (from, to) = match (words.len(), number(words.get(1)), number(words.get(2))) {
        (3, Some(from), Some(to)) => (from, to),
        _ => {
            eprintln!("usage: rename FOLDER FROM TO");
            return ExitCode::from(2);
        }
    };
    match run(Path::new(&words[0]), from, to) {
        Ok(()) => ExitCode::SUCCESS,
        Err(stop) => {
            println!("{stop}");
            ExitCode::FAILURE
        }
    }
}
