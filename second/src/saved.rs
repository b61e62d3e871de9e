//! Cases as files: case.txt holds what is small, a file each what is long.

use crate::case::{Case, Table};
use crate::paper::edits::Edit;
use crate::paper::program::Files;
use crate::paper::tally::Tally;
use crate::paper::{schema_file, table};
use std::collections::HashMap;
use std::fmt::Display;
use std::fs;
use std::io::{Error, ErrorKind, Result};
use std::path::Path;
use std::rc::Rc;
use std::str::FromStr;

/// Writes a case into a folder, which is made. Bit k of `sides` is set if lent memory k stands at the front of its field.
pub fn save(folder: &Path, case: &Case, sides: u8) -> Result<()> {
    fs::create_dir_all(folder)?;
    let mut small = format!("call {}\nsides {sides}\n", case.call());
    match case {
        Case::Read { file, buffer } => {
            fs::write(folder.join("file.dat"), file)?;
            write_numbers(folder, "buffer.txt", buffer)?;
        }
        Case::Write { tokens, buffer } => {
            write_numbers(folder, "tokens.txt", tokens)?;
            write_numbers(folder, "buffer.txt", buffer)?;
        }
        Case::Translate { file, buffer } => {
            fs::write(folder.join("schema.dat"), file)?;
            write_numbers(folder, "buffer.txt", buffer)?;
        }
        Case::Import { text, buffer } | Case::Names { text, buffer } => {
            fs::write(folder.join("text.dtd"), text)?;
            write_numbers(folder, "buffer.txt", buffer)?;
        }
        Case::Spot { text } => fs::write(folder.join("text.dtd"), text)?,
        Case::Imported { text, buffer } => {
            fs::write(folder.join("text.dtd"), text)?;
            write_numbers(folder, "buffer.txt", buffer)?;
        }
        Case::Check { table, doc, used, counts } => {
            save_table(folder, table)?;
            write_numbers(folder, "doc.txt", doc)?;
            write_numbers(folder, "counts.txt", counts)?;
            small += &format!("used {used}\n");
        }
        Case::Edit { table, doc, used, edit, back, counts, give } => {
            save_table(folder, table)?;
            write_numbers(folder, "doc.txt", doc)?;
            write_numbers(folder, "piece.txt", &edit.piece)?;
            write_numbers(folder, "back.txt", back)?;
            write_numbers(folder, "counts.txt", counts)?;
            if let Some(tokens) = give {
                write_numbers(folder, "give.txt", tokens)?;
            }
            small += &format!("used {used}\noperation {}\nplace {}\n", edit.operation, edit.place);
        }
        Case::List { table, doc, used, list, counts } => {
            save_table(folder, table)?;
            write_numbers(folder, "doc.txt", doc)?;
            write_numbers(folder, "list.txt", list)?;
            write_numbers(folder, "counts.txt", counts)?;
            small += &format!("used {used}\n");
        }
        Case::Elements { table, counts, name } => {
            save_table(folder, table)?;
            write_numbers(folder, "counts.txt", counts)?;
            small += &format!("name {name}\n");
        }
        Case::Group { table, doc, used, list, second } => {
            save_table(folder, table)?;
            write_numbers(folder, "doc.txt", doc)?;
            write_numbers(folder, "list.txt", list)?;
            write_numbers(folder, "second.txt", second)?;
            small += &format!("used {used}\n");
        }
        Case::Compare { old, new, element, buffer } => {
            for (name, table) in [("old", old), ("new", new)] {
                fs::create_dir_all(folder.join(name))?;
                save_table(&folder.join(name), table)?;
            }
            write_numbers(folder, "buffer.txt", buffer)?;
            small += &format!("element {element}\n");
        }
        Case::Program(files) => save_files(folder, files)?,
    }
    fs::write(folder.join("case.txt"), small)
}

/// The three files of the edit program, those that are there.
pub fn save_files(folder: &Path, files: &Files) -> Result<()> {
    for (name, file) in [("schema.dat", &files.schema), ("doc.dat", &files.doc), ("edits.dat", &files.edits)] {
        if let Some(file) = file {
            fs::write(folder.join(name), file)?;
        }
    }
    Ok(())
}

fn save_table(folder: &Path, table: &Table) -> Result<()> {
    match &table.schema {
        Some(schema) => fs::write(folder.join("schema.dat"), schema),
        None => write_numbers(folder, "table.txt", &table.words),
    }
}

fn write_numbers<T: Display>(folder: &Path, name: &str, numbers: &[T]) -> Result<()> {
    let text: Vec<String> = numbers.iter().map(T::to_string).collect();
    fs::write(folder.join(name), text.join(" ") + "\n")
}

/// A saved case and its sides.
pub fn load(folder: &Path) -> Result<(Case, u8)> {
    let text = fs::read_to_string(folder.join("case.txt"))?;
    let small: HashMap<&str, &str> = text.lines().filter_map(|line| line.split_once(' ')).collect();
    let call = *small.get("call").ok_or_else(|| bad("no call"))?;
    let case = match call {
        "read" => Case::Read { file: fs::read(folder.join("file.dat"))?, buffer: numbers(folder, "buffer.txt")? },
        "write" => Case::Write { tokens: numbers(folder, "tokens.txt")?, buffer: numbers(folder, "buffer.txt")? },
        "translate" => Case::Translate { file: fs::read(folder.join("schema.dat"))?, buffer: numbers(folder, "buffer.txt")? },
        "import" => Case::Import { text: fs::read(folder.join("text.dtd"))?, buffer: numbers(folder, "buffer.txt")? },
        "names" => Case::Names { text: fs::read(folder.join("text.dtd"))?, buffer: numbers(folder, "buffer.txt")? },
        "spot" => Case::Spot { text: fs::read(folder.join("text.dtd"))? },
        "imported" => Case::Imported { text: fs::read(folder.join("text.dtd"))?, buffer: numbers(folder, "buffer.txt")? },
        "check" => Case::Check {
            table: load_table(folder)?,
            doc: numbers(folder, "doc.txt")?,
            used: number(&small, "used")?,
            counts: counts(folder)?,
        },
        "edit" => Case::Edit {
            table: load_table(folder)?,
            doc: numbers(folder, "doc.txt")?,
            used: number(&small, "used")?,
            edit: Edit { operation: number(&small, "operation")?, place: number(&small, "place")?, piece: numbers(folder, "piece.txt")? },
            back: numbers(folder, "back.txt")?,
            counts: counts(folder)?,
            give: if folder.join("give.txt").exists() { Some(numbers(folder, "give.txt")?) } else { None },
        },
        "list" => Case::List {
            table: load_table(folder)?,
            doc: numbers(folder, "doc.txt")?,
            used: number(&small, "used")?,
            list: numbers(folder, "list.txt")?,
            counts: counts(folder)?,
        },
        "elements" => Case::Elements { table: load_table(folder)?, counts: counts(folder)?, name: number(&small, "name")? },
        "group" => Case::Group {
            table: load_table(folder)?,
            doc: numbers(folder, "doc.txt")?,
            used: number(&small, "used")?,
            list: numbers(folder, "list.txt")?,
            second: numbers(folder, "second.txt")?,
        },
        "compare" => Case::Compare {
            old: load_table(&folder.join("old"))?,
            new: load_table(&folder.join("new"))?,
            element: number(&small, "element")?,
            buffer: numbers(folder, "buffer.txt")?,
        },
        "program" => Case::Program(Files {
            schema: fs::read(folder.join("schema.dat")).ok(),
            doc: fs::read(folder.join("doc.dat")).ok(),
            edits: fs::read(folder.join("edits.dat")).ok(),
        }),
        _ => return Err(bad("no such call")),
    };
    Ok((case, number(&small, "sides")?))
}

fn load_table(folder: &Path) -> Result<Rc<Table>> {
    let schema = match fs::read(folder.join("schema.dat")) {
        Ok(schema) => schema,
        Err(_) => return Ok(Rc::new(Table::of_words(numbers(folder, "table.txt")?))),
    };
    let grammar = schema_file::read(&schema).map_err(|_| bad("a schema that is refused"))?;
    Ok(Rc::new(Table { words: table::of(&grammar), grammar: Some(grammar), schema: Some(schema) }))
}

fn numbers<T: FromStr>(folder: &Path, name: &str) -> Result<Vec<T>> {
    let text = fs::read_to_string(folder.join(name))?;
    text.split_whitespace().map(|number| number.parse().map_err(|_| bad("no number"))).collect()
}

fn counts(folder: &Path) -> Result<Tally> {
    Tally::try_from(numbers(folder, "counts.txt")?).map_err(|_| bad("not 48 counts"))
}

fn number<T: FromStr>(small: &HashMap<&str, &str>, name: &str) -> Result<T> {
    small.get(name).and_then(|number| number.parse().ok()).ok_or_else(|| bad("a number is missing"))
}

fn bad(what: &str) -> Error {
    Error::new(ErrorKind::InvalidData, what)
}
