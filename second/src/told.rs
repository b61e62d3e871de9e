//! Cases in words.

use crate::case::{operation_name, Case, Table};
use crate::paper::lists;

impl Case {
    pub fn call(&self) -> &'static str {
        match self {
            Case::Read { .. } => "read",
            Case::Write { .. } => "write",
            Case::Translate { .. } => "translate",
            Case::Import { .. } => "import",
            Case::Names { .. } => "names",
            Case::Spot { .. } => "spot",
            Case::Imported { .. } => "imported",
            Case::Check { .. } => "check",
            Case::Edit { .. } => "edit",
            Case::List { .. } => "list",
            Case::Elements { .. } => "elements",
            Case::Group { .. } => "group",
            Case::Compare { .. } => "compare",
            Case::Program(_) => "program",
        }
    }

    /// The case in a few words.
    pub fn in_words(&self) -> String {
        match self {
            Case::Read { file, buffer } => format!("read: {} bytes, room for {}", file.len(), buffer.len()),
            Case::Write { tokens, buffer } => format!("write: {} tokens, room for {} bytes", tokens.len(), buffer.len()),
            Case::Translate { file, buffer } => format!("translate: {} bytes, room for {} words", file.len(), buffer.len()),
            Case::Import { text, buffer } => format!("import: room for {} bytes\n  text {}", buffer.len(), quoted(text)),
            Case::Names { text, buffer } => format!("names: room for {} bytes\n  text {}", buffer.len(), quoted(text)),
            Case::Spot { text } => format!("import spot\n  text {}", quoted(text)),
            Case::Imported { text, .. } => format!("import and translate\n  text {}", quoted(text)),
            Case::Check { table, doc, used, .. } => {
                format!("check: {}, buffer of {}, used {used}\n  document {}", table_in_words(table), doc.len(), short(doc))
            }
            Case::Edit { table, doc, used, edit, back, counts, give } => format!(
                "{} (operation {}) at {}{}: {}, buffers of {} and {}, used {used}\n  document {}\n  piece of {}: {}\n  counts {counts:?}",
                operation_name(edit.operation),
                edit.operation,
                edit.place,
                if give.is_some() { ", to step back" } else { "" },
                table_in_words(table),
                doc.len(),
                back.len(),
                short(doc),
                edit.piece.len(),
                short(&edit.piece)
            ),
            Case::List { table, doc, used, list, counts } => format!(
                "list of {} numbers, {} whole edits: {}, buffer of {}, used {used}\n  document {}\n  list {}\n  counts {counts:?}",
                list.len(),
                lists::front(list).0.len(),
                table_in_words(table),
                doc.len(),
                short(doc),
                short(list)
            ),
            Case::Elements { table, counts, name } => format!("elements of name {name}: {}, counts {counts:?}", table_in_words(table)),
            Case::Group { table, doc, used, list, second } => format!(
                "group of {} numbers, {} whole edits: {}, buffers of {} and {}, used {used}\n  document {}\n  list {}",
                list.len(),
                lists::front(list).0.len(),
                table_in_words(table),
                doc.len(),
                second.len(),
                short(doc),
                short(list)
            ),
            Case::Compare { old, new, element, buffer } => {
                format!("compare element {element}: old {}, new {}, room for {}", table_in_words(old), table_in_words(new), buffer.len())
            }
            Case::Program(files) => format!(
                "program: schema.dat {}, doc.dat {}, edits.dat {}",
                file_in_words(&files.schema),
                file_in_words(&files.doc),
                file_in_words(&files.edits)
            ),
        }
    }
}

fn table_in_words(table: &Table) -> String {
    match (&table.schema, &table.grammar) {
        (Some(_), _) => "translated table".to_string(),
        (None, Some(_)) => "proper table of no schema".to_string(),
        (None, None) => format!("improper table of {} words", table.words.len()),
    }
}

fn file_in_words(file: &Option<Vec<u8>>) -> String {
    match file {
        None => "missing".to_string(),
        Some(file) => format!("{} bytes", file.len()),
    }
}

/// The first bytes of a text and their count.
fn quoted(text: &[u8]) -> String {
    let shown = String::from_utf8_lossy(&text[..text.len().min(400)]);
    format!("of {} bytes {shown:?}", text.len())
}

/// The first numbers of a list.
fn short(numbers: &[u32]) -> String {
    let shown: Vec<String> = numbers.iter().take(40).map(u32::to_string).collect();
    let more = if numbers.len() > 40 { " .." } else { "" };
    shown.join(" ") + more
}
