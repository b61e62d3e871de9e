//! The edges of an edit's second buffer, of its counts, of a list's form and of a group, to be counted: each must occur.

use crate::case::Table;
use crate::paper::answer;
use crate::paper::edits::{Edit, Looked, LONGEST_BACK, SET};
use crate::paper::grammar::Grammar;
use crate::paper::groups::{Grouped, Worked};
use crate::paper::lists::{self, Listed, MOST_EDITS};
use crate::paper::tally::{self, Tally};
use crate::paper::MOST_TOKENS;

/// How the second buffer fits, what one that is too short kept from being judged, and what a set finds; each with the number that counts.
/// Only an edit in form is asked; `again` answers it with another second buffer and with counts that keep nothing back.
pub fn of(looked: &Looked, edit: &Edit, back: &[u32], number: u32, again: &dyn Fn(&[u32]) -> u32) -> Vec<(&'static str, u32)> {
    let inverse = &looked.inverse;
    let needed = inverse.numbers().len();
    let mut edges = Vec::new();
    if back.len() < 4 {
        edges.push((["back of 0", "back of 1", "back of 2", "back of 3"][back.len()], number));
    }
    if back.len() == needed {
        edges.push(("back just enough", number));
    }
    if back.len() < needed {
        edges.push(("back short, else", again(&[0; LONGEST_BACK])));
    }
    if back.len() + 1 == needed {
        edges.push(("back one short", number));
    }
    if inverse.piece.len() >= 8_000 {
        edges.push(("back over 8,000", number));
    }
    if edit.operation == SET {
        let what = match inverse.operation == SET {
            true if inverse.piece == edit.piece => "set as it was",
            true => "set replaces",
            false => "set adds",
        };
        edges.push((what, number));
    }
    edges
}

/// Where the counts stand after the edit, and what counts that are out kept from being judged. One whose second buffer is too short besides
/// has a row of its own.
pub fn of_counts(
    looked: &Looked,
    grammar: &Grammar,
    back: &[u32],
    counts: &Tally,
    number: u32,
    again: &dyn Fn(&[u32]) -> u32,
) -> Vec<(&'static str, u32)> {
    let after = tally::moved(counts, &looked.moved, grammar);
    let is_out = |count: &i64| !(0..=8_192).contains(count);
    let mut edges = Vec::new();
    if number == answer::ROOM {
        if after.iter().any(is_out) {
            edges.push(("counts out, no back", number));
        }
        return edges;
    }
    if tally::declared(&looked.before, grammar) == *counts {
        edges.push(("counts true", number));
    }
    if counts.iter().any(|count| [i32::MIN, i32::MAX].contains(count)) {
        edges.push(("counts at i32's ends", number));
    }
    if !after.iter().any(is_out) {
        if after.contains(&8_192) {
            edges.push(("counts to 8,192", number));
        }
        return edges;
    }
    if !after[..grammar.elements.len()].iter().any(is_out) {
        edges.push(("counts from E on", number));
    }
    if counts.iter().all(|count| (0..=8_192).contains(count)) {
        edges.push((if after.contains(&-1) { "counts to -1" } else { "counts past 8,192" }, number));
    }
    edges.push(("counts out, else", again(back)));
    edges
}

/// The question by its name: below E, from E on.
pub fn of_question(table: &Table, name: u32, number: u32) -> Vec<(&'static str, u32)> {
    let mut edges = vec![("elements", number)];
    if table.grammar.as_ref().map_or(false, |grammar| name as usize >= grammar.elements.len()) {
        edges.push((if name < 48 { "elements, E to 47" } else { "elements, 48 on" }, number));
    }
    edges
}

/// The list's own fault; or how many edits it has, which was refused, and a piece that is too long.
pub fn of_list(list: &[u32], listed: &Listed) -> Vec<(&'static str, u32)> {
    let number = listed.last.number;
    let edits = match lists::edits_of(list) {
        Ok(edits) => edits,
        Err(_) => return vec![(fault_of_list(list), number)],
    };
    let mut edges = vec![("list", number)];
    match edits.len() {
        1 => edges.push(("list of one", number)),
        MOST_EDITS => edges.push(("list of 256", number)),
        _ => {}
    }
    if let Some(refused) = edits.get(listed.done as usize) {
        edges.push((if listed.done == 0 { "list, first refused" } else { "list, later refused" }, number));
        if refused.piece.len() > MOST_TOKENS {
            edges.push(("list, long piece", number));
        }
    }
    edges
}

/// A group's answer by what gave it: before any edit, an edit, the last document. What it leaves in the second buffer, and how long that is.
pub fn of_group(list: &[u32], doc: &[u32], second: &[u32], worked: &Worked) -> Vec<(&'static str, u32)> {
    let Grouped { number, which, change, .. } = worked.grouped;
    let mut edges = vec![("group", number)];
    let edits = match lists::edits_of(list) {
        Ok(edits) => edits,
        Err(fault) if fault == number && worked.second == second => return vec![("group", number), ("group, the list", number)],
        Err(_) => return edges,
    };
    if second.len() < doc.len() {
        edges.push(("group, second short", number));
        return edges;
    }
    match which {
        0 if number == answer::TABLE || (number == answer::SHAPE && worked.second == second) => return edges,
        0 => edges.push(("group, the end", number)),
        1 => edges.push(("group, first edit", number)),
        _ => edges.push(("group, later edit", number)),
    }
    if second.len() == doc.len() {
        edges.push(("group, as long", number));
    }
    if edits.len() == MOST_EDITS {
        edges.push(("group of 256", number));
    }
    if number == answer::DONE {
        let length = worked.grouped.used as usize;
        if worked.longest > length.max((length as i64 - i64::from(change)) as usize) {
            edges.push(("group, longer within", number));
        }
        edges.push((if change < 0 { "group shortens" } else { "group, not shorter" }, number));
    }
    edges
}

fn fault_of_list(list: &[u32]) -> &'static str {
    let (edits, rest) = lists::front(list);
    match edits.len() {
        MOST_EDITS if lists::front(rest).0.is_empty() => "list of 256, rest",
        MOST_EDITS => "list of 257",
        0 if rest.is_empty() => "list empty",
        _ if rest.len() < 3 => "list ends in a head",
        _ => "list ends in a piece",
    }
}
