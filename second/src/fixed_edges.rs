//! The edges of fixed attributes, to be counted: each must occur.

use crate::paper::answer;
use crate::paper::edits::{Edit, SET};
use crate::paper::grammar::Grammar;
use crate::paper::judgement::Verdict;
use crate::paper::schema_file;
use crate::paper::table::{fixed_fault, is_proper_but_fixed};
use crate::paper::tree::{self, Element, Token};

/// How many fixed attributes a schema file has, if it is taken, or the rule of theirs that it breaks.
pub fn of_file(file: &[u8], number: u32) -> Option<(&'static str, u32)> {
    match schema_file::read_telling(file) {
        (Ok(grammar), _) if number == answer::DONE => match grammar.fixed() {
            0 => Some(("fixed, none", number)),
            1 => Some(("fixed, one", number)),
            16 => Some(("fixed, 16", number)),
            _ => None,
        },
        (_, broken) if number == answer::SCHEMA => broken.map(|what| (what, number)),
        _ => None,
    }
}

/// The rule of fixed attributes for which alone a table is refused, if it is one.
pub fn of_table(words: &[u64], number: u32) -> Option<(&'static str, u32)> {
    match number == answer::TABLE && is_proper_but_fixed(words) {
        true => fixed_fault(words).map(|what| (what, number)),
        false => None,
    }
}

/// A document with a fixed attribute that is valid, or the element of which is refused.
pub fn of_check(grammar: &Grammar, doc: &[u32], used: u64, verdict: Verdict) -> Option<(&'static str, u32)> {
    if grammar.fixed() == 0 || ![answer::DONE, answer::ATTRIBUTES].contains(&verdict.number) {
        return None;
    }
    let mut found = None;
    let (mut at, number) = (0, verdict.number);
    let root = tree::document(doc, used)?;
    // The starts, by rising place.
    let starts: Vec<u32> = (0..used as u32).filter(|place| matches!(Token::of(doc[*place as usize]), Some(Token::Start(_)))).collect();
    root.each(&mut |element| {
        if number == answer::DONE || starts[at] == verdict.place {
            found = found.or(fixed_of(grammar, element).map(|what| (what, number)));
        }
        at += 1;
    });
    found
}

/// The values of an element's first fixed attribute: right, another one, or the right one twice.
fn fixed_of(grammar: &Grammar, element: &Element) -> Option<&'static str> {
    let declaration = grammar.declaration(element.name)?;
    element.attributes.iter().find_map(|attribute| {
        let value = declaration.attribute(attribute.number)?.fixed?;
        match &attribute.values[..] {
            [one] if *one == value => Some("fixed right"),
            [_] => Some("fixed wrong"),
            [one, two] if [*one, *two] == [value; 2] => Some("fixed twice"),
            _ => None,
        }
    })
}

/// A set of a fixed attribute.
pub fn of_set(grammar: &Grammar, doc: &[u32], edit: &Edit, number: u32) -> Option<(&'static str, u32)> {
    let at = |token: Option<&u32>| token.and_then(|token| Token::of(*token));
    match (edit.operation, at(doc.get(edit.place as usize)), at(edit.piece.first())) {
        (SET, Some(Token::Start(name)), Some(Token::Attribute(attribute))) => {
            let fixed = grammar.declaration(name)?.attribute(attribute)?.fixed;
            fixed.map(|_| ("set fixed", number))
        }
        _ => None,
    }
}
