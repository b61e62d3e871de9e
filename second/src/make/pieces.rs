//! Pieces of edits: fitting, clashing, dangling, too deep, too long.

use super::documents::{chain, grown, Ground};
use super::{faults, keys};
use crate::paper::edits::{DROP, INSERT, REMOVE, REPLACE, SET};
use crate::paper::grammar::Kind;
use crate::paper::tree::{Attribute, Element, Token};
use crate::paper::MOST_TOKENS;
use crate::random::Random;

/// A grown element with IDs that are not taken. Now and then its IDs clash, or its references meet nothing.
pub fn element(random: &mut Random, ground: &Ground, name: u16, size: usize, taken: &[u16]) -> Element {
    let mut piece = grown(random, ground, name, size, 2);
    match random.below(12) {
        0 => keys::settle(random, &mut piece, ground.grammar, &[]),
        1 => equal_ids(random, &mut piece, ground, taken),
        _ => keys::settle(random, &mut piece, ground.grammar, taken),
    }
    if random.chance(12) {
        faults::in_tree(random, &mut piece, ground.grammar);
    }
    piece
}

/// All IDs of the piece are one value, which may be taken.
fn equal_ids(random: &mut Random, piece: &mut Element, ground: &Ground, taken: &[u16]) {
    keys::settle(random, piece, ground.grammar, taken);
    let value = match taken.is_empty() || random.chance(50) {
        true => random.short(),
        false => *random.pick(taken),
    };
    piece.each_mut(&mut |element| {
        for attribute in &mut element.attributes {
            if keys::kind(ground.grammar, element.name, attribute.number).map_or(false, |kind| kind != Kind::Cdata) {
                attribute.values = vec![value; attribute.values.len()];
            }
        }
    });
}

/// Elements nested so that the piece is as deep as may be at a depth, or one deeper; or so by itself.
pub fn deep(random: &mut Random, ground: &Ground, name: u16, above: usize) -> Vec<u32> {
    let depth = match random.below(4) {
        0 => 64 - above.min(63),
        1 => 65 - above.min(64),
        2 => 64,
        _ => 65,
    };
    chain(random, ground.grammar, name, depth).tokens()
}

/// A piece of the operation's form around or over 8,192 tokens, or one that brings the document there.
pub fn long(random: &mut Random, operation: u32, name: u16, attribute: u16, used: usize) -> Vec<u32> {
    let length = match random.below(5) {
        0 => MOST_TOKENS,
        1 => MOST_TOKENS + 1,
        2 => random.within(MOST_TOKENS + 1, 20_000),
        3 => (MOST_TOKENS + 1).saturating_sub(used).max(3),
        _ => MOST_TOKENS.saturating_sub(used).max(3),
    };
    match operation {
        INSERT | REPLACE => {
            let mut piece = vec![Token::Start(name).code()];
            match random.chance(50) {
                true => piece.resize(length - 1, Token::Text(random.short()).code()),
                false => {
                    piece.push(Token::Attribute(attribute).code());
                    piece.resize(length - 1, Token::Value(random.short()).code());
                }
            }
            piece.push(Token::End.code());
            piece
        }
        SET => {
            let mut piece = vec![Token::Attribute(attribute).code()];
            piece.resize(length, Token::Value(random.short()).code());
            piece
        }
        _ => vec![Token::Attribute(attribute).code(); length],
    }
}

/// The attribute of a set: allowed and with fitting values, mostly; now and then one that is there, as it is.
pub fn attribute(random: &mut Random, ground: &Ground, element: &Element, ids: &[u16]) -> Attribute {
    if !element.attributes.is_empty() && random.chance(12) {
        return random.pick(&element.attributes).clone();
    }
    let known = ground.grammar.declaration(element.name).map_or(&[][..], |declaration| &declaration.attributes);
    if known.is_empty() || random.chance(10) {
        let values = (0..random.within(1, 3)).map(|_| random.short()).collect();
        return Attribute { number: random.short(), values };
    }
    let known = random.pick(known);
    if let Some(value) = known.fixed {
        return Attribute { number: known.number, values: fixed_values(random, value) };
    }
    let value = |random: &mut Random| match known.kind {
        Kind::Idref | Kind::Idrefs if !ids.is_empty() && !random.chance(10) => *random.pick(ids),
        Kind::Id if !ids.is_empty() && random.chance(20) => *random.pick(ids),
        _ => random.short(),
    };
    let count = match known.kind {
        Kind::Idrefs => random.within(1, 6),
        _ if random.chance(8) => 2,
        _ => 1,
    };
    Attribute { number: known.number, values: (0..count).map(|_| value(random)).collect() }
}

/// The value that is fixed, mostly; else another, or it and one more.
pub fn fixed_values(random: &mut Random, value: u16) -> Vec<u16> {
    match random.below(8) {
        0 => vec![random.short()],
        1 => vec![value, value],
        2 => vec![value, random.short()],
        _ => vec![value],
    }
}

/// Another piece in place of a fitting one: empty, a text, an element, an attribute, noise, or a fault in its tokens.
pub fn disturb(random: &mut Random, ground: &Ground, piece: &mut Vec<u32>) {
    let name = faults::name(random, ground.grammar);
    match random.below(8) {
        0 => piece.clear(),
        1 => *piece = vec![Token::Text(random.short()).code()],
        2 => *piece = Element::new(name).tokens(),
        3 => *piece = vec![Token::Attribute(random.short()).code()],
        4 => *piece = faults::noise(random, 6),
        5 => piece.extend(piece.clone()),
        _ => faults::in_tokens(random, piece),
    }
}

/// The operations, each as often as is of use.
pub fn operation(random: &mut Random) -> u32 {
    *random.pick(&[INSERT, INSERT, INSERT, REPLACE, REPLACE, REMOVE, REMOVE, SET, SET, DROP, DROP])
}
