//! "Judgement of a document": the first fault of a tree and its place.

use super::answer::{ATTRIBUTES, CONTENT, DONE, ID_TWICE, NAME, NO_ID, ROOT, SHAPE, TABLE};
use super::grammar::{Attribute, Declaration, Grammar, Kind};
use super::tally::{self, Tally, MIDDLE};
use super::tree::{self, Element, Item};
use std::collections::HashSet;

#[derive(Clone, Copy, Debug, PartialEq)]
pub struct Verdict {
    pub number: u32,
    pub place: u32,
}

/// The whole check. Without a grammar the table is not proper.
pub fn check(grammar: Option<&Grammar>, buffer: &[u32], used: u64) -> Verdict {
    check_counting(grammar, buffer, used, &MIDDLE).0
}

/// The whole check, and the counts after it: "written by a check that says valid".
pub fn check_counting(grammar: Option<&Grammar>, buffer: &[u32], used: u64, counts: &Tally) -> (Verdict, Tally) {
    let grammar = match grammar {
        Some(grammar) => grammar,
        None => return (Verdict { number: TABLE, place: 0 }, *counts),
    };
    match tree::document(buffer, used) {
        None => (Verdict { number: SHAPE, place: 0 }, *counts),
        Some(mut root) => {
            root.touch_all();
            let verdict = judge(&root, grammar);
            (verdict, if verdict.number == DONE { tally::fresh(&root, grammar) } else { *counts })
        }
    }
}

/// The judgement of a tree, with 7, 8 and 9 at touched elements only.
pub fn judge(root: &Element, grammar: &Grammar) -> Verdict {
    if usize::from(root.name) != grammar.root {
        return Verdict { number: ROOT, place: 0 };
    }
    let mut keys = Vec::new();
    if let Err(verdict) = visit(root, grammar, &mut 0, &mut keys) {
        return verdict;
    }
    match key_fault(&keys) {
        Some(verdict) => verdict,
        None => Verdict { number: DONE, place: 0 },
    }
}

/// A value that is an ID or a reference.
struct Key {
    place: u32,
    value: u16,
    is_id: bool,
}

/// Goes over the elements by rising place, gathering IDs and references, up to the first fault. `at` is the place reached.
fn visit(element: &Element, grammar: &Grammar, at: &mut u32, keys: &mut Vec<Key>) -> Result<(), Verdict> {
    let declaration = grammar.declaration(element.name);
    if element.touched {
        if let Some((number, offset)) = fault(element, declaration) {
            return Err(Verdict { number, place: *at + offset });
        }
    }
    *at += 1;
    for attribute in &element.attributes {
        *at += 1;
        let kind = declaration.and_then(|declaration| declaration.attribute(attribute.number)).map(|known| known.kind);
        for value in &attribute.values {
            match kind {
                Some(Kind::Id) => keys.push(Key { place: *at, value: *value, is_id: true }),
                Some(Kind::Idref | Kind::Idrefs) => keys.push(Key { place: *at, value: *value, is_id: false }),
                Some(Kind::Cdata) | None => {}
            }
            *at += 1;
        }
    }
    for item in &element.content {
        match item {
            Item::Element(child) => visit(child, grammar, at, keys)?,
            Item::Text(_) => *at += 1,
        }
    }
    *at += 1;
    Ok(())
}

/// The fault of an element, and its place from the start on.
fn fault(element: &Element, declaration: Option<&Declaration>) -> Option<(u32, u32)> {
    let declaration = match declaration {
        Some(declaration) => declaration,
        None => return Some((NAME, 0)),
    };
    let each_fits = element.attributes.iter().all(|attribute| match declaration.attribute(attribute.number) {
        None => false,
        Some(Attribute { fixed: Some(value), .. }) => attribute.values == [*value],
        Some(known) => known.kind == Kind::Idrefs || attribute.values.len() == 1,
    });
    let has = |number| element.attributes.iter().any(|attribute| attribute.number == number);
    let none_lacks = declaration.attributes.iter().all(|known| !known.required || has(known.number));
    if !each_fits || !none_lacks {
        return Some((ATTRIBUTES, 0));
    }
    let stop = declaration.stop(&element.items())?;
    let before = element.head_size() + element.content[..stop].iter().map(Item::size).sum::<usize>();
    Some((CONTENT, before as u32))
}

/// The first ID met before, else the first reference to no ID.
fn key_fault(keys: &[Key]) -> Option<Verdict> {
    let mut ids = HashSet::new();
    for key in keys.iter().filter(|key| key.is_id) {
        if !ids.insert(key.value) {
            return Some(Verdict { number: ID_TWICE, place: key.place });
        }
    }
    let dangling = keys.iter().find(|key| !key.is_id && !ids.contains(&key.value))?;
    Some(Verdict { number: NO_ID, place: dangling.place })
}
