//! Faults of every kind, put into trees and into tokens; and noise.

use super::documents::chain;
use super::keys;
use crate::paper::grammar::{Content, Grammar, Kind};
use crate::paper::tree::{Attribute, Element, Item, Token};
use crate::random::Random;

/// How many elements a tree has.
pub fn count(root: &Element) -> usize {
    let mut count = 0;
    root.each(&mut |_| count += 1);
    count
}

/// Changes one element, the k-th by rising place.
fn change_nth(root: &mut Element, k: usize, change: &mut dyn FnMut(&mut Element)) {
    let mut at = 0;
    root.each_mut(&mut |element| {
        if at == k {
            change(element);
        }
        at += 1;
    });
}

/// A name that is declared, or not.
pub fn name(random: &mut Random, grammar: &Grammar) -> u16 {
    let count = grammar.elements.len();
    match random.below(8) {
        0 => count as u16,
        1 => *random.pick(&[count as u16, 47, 48, 63, 64, 255, 256, 65_535]),
        _ => random.below(count) as u16,
    }
}

/// Takes an element that holds something, not the root, and gives it a name that is not declared.
fn undeclare_holder(random: &mut Random, root: &mut Element, grammar: &Grammar) {
    let mut holders = Vec::new();
    let mut at = 0;
    root.each(&mut |element| {
        if at > 0 && !element.content.is_empty() {
            holders.push(at);
        }
        at += 1;
    });
    if !holders.is_empty() {
        let k = *random.pick(&holders);
        change_nth(root, k, &mut |element| element.name = undeclared(random, grammar));
    }
}

fn undeclared(random: &mut Random, grammar: &Grammar) -> u16 {
    grammar.elements.len() as u16 + random.short() / 2
}

/// Gives an ID, not the first one, the value of another.
fn repeat_id(random: &mut Random, root: &mut Element, grammar: &Grammar, all_ids: &[u16]) {
    let which = random.within(1, all_ids.len() - 1);
    let value = all_ids[random.below(which)];
    let mut at = 0;
    root.each_mut(&mut |element| {
        for attribute in &mut element.attributes {
            if keys::kind(grammar, element.name, attribute.number) == Some(Kind::Id) {
                for id in &mut attribute.values {
                    if at == which {
                        *id = value;
                    }
                    at += 1;
                }
            }
        }
    });
}

/// One fault, or a change that happens to be none, somewhere in the tree.
pub fn in_tree(random: &mut Random, root: &mut Element, grammar: &Grammar) {
    let all_ids = keys::ids(root, grammar);
    if all_ids.len() > 1 && random.chance(25) {
        return repeat_id(random, root, grammar, &all_ids);
    }
    if random.chance(8) {
        return undeclare_holder(random, root, grammar);
    }
    let k = match random.chance(25) {
        true => 0,
        false => random.below(count(root)),
    };
    change_nth(root, k, &mut |element| match random.below(4) {
        0 => change_attributes(random, element, grammar),
        1 => change_values(random, element, grammar, &all_ids),
        2 => change_content(random, element, grammar),
        _ => match random.below(3) {
            0 if random.chance(50) => element.name = name(random, grammar),
            0 => element.name = undeclared(random, grammar),
            1 => change_attributes(random, element, grammar),
            _ => change_content(random, element, grammar),
        },
    });
}

fn change_attributes(random: &mut Random, element: &mut Element, grammar: &Grammar) {
    let i = random.below(element.attributes.len());
    if random.chance(8) && !element.attributes.is_empty() {
        // No longer rising: one twice, or two in the other order.
        match random.chance(50) {
            true => element.attributes.insert(i, element.attributes[i].clone()),
            false => element.attributes.swap(0, i),
        }
        return;
    }
    if random.chance(50) && !element.attributes.is_empty() {
        element.attributes.remove(i);
        return;
    }
    let known = grammar.declaration(element.name).map_or(&[][..], |declaration| &declaration.attributes);
    let number = match known.is_empty() || random.chance(50) {
        true => random.short(),
        false => random.pick(known).number,
    };
    let values = (0..random.within(1, 3)).map(|_| random.short()).collect();
    put_attribute(element, Attribute { number, values });
}

/// Adds an attribute or changes its values, in order.
pub fn put_attribute(element: &mut Element, attribute: Attribute) {
    element.attributes.retain(|old| old.number != attribute.number);
    element.attributes.push(attribute);
    element.attributes.sort_by_key(|attribute| attribute.number);
}

fn change_values(random: &mut Random, element: &mut Element, grammar: &Grammar, all_ids: &[u16]) {
    if element.attributes.is_empty() {
        return change_content(random, element, grammar);
    }
    let i = random.below(element.attributes.len());
    let kind = keys::kind(grammar, element.name, element.attributes[i].number);
    let fixed = keys::fixed(grammar, element.name, element.attributes[i].number);
    let attribute = &mut element.attributes[i];
    let at = random.below(attribute.values.len());
    if let Some(value) = fixed {
        attribute.values = match random.below(3) {
            0 => vec![value, value],
            1 => vec![value.wrapping_add(1)],
            _ => vec![random.short()],
        };
        return;
    }
    match kind {
        Some(Kind::Id) if random.chance(70) => attribute.values[at] = *random.pick(all_ids),
        Some(Kind::Idref | Kind::Idrefs) if random.chance(70) => attribute.values[at] = random.short(),
        _ => attribute.values.push(random.short()),
    }
}

fn change_content(random: &mut Random, element: &mut Element, grammar: &Grammar) {
    let is_row = grammar.declaration(element.name).map_or(false, |declaration| matches!(declaration.content, Content::Text));
    let content = &mut element.content;
    if is_row && random.chance(40) {
        // Texts side by side.
        content.extend((0..2).map(|_| Item::Text(random.short())));
        return;
    }
    let at = random.below(content.len() + 1);
    let last = content.len().saturating_sub(1);
    match random.below(8) {
        0 => content.insert(at, Item::Text(random.short())),
        1 | 2 => {
            let mut added = Element::new(name(random, grammar));
            match random.below(4) {
                0 => added.attributes.push(Attribute { number: random.short(), values: vec![random.short()] }),
                1 => added.content.push(Item::Text(random.short())),
                2 => added.content.push(Item::Element(Element::new(name(random, grammar)))),
                _ => {}
            }
            content.insert(at, Item::Element(added));
        }
        3 if at < content.len() => {
            content.remove(at);
        }
        4 if at < content.len() => content.swap(at, last),
        5 if at < content.len() => {
            let again = content[at].clone();
            content.insert(at, again);
        }
        6 if random.chance(20) => {
            let depth = random.within(60, 66);
            let first = name(random, grammar);
            content.insert(at, Item::Element(chain(random, grammar, first, depth)));
        }
        _ => {
            content.pop();
        }
    }
}

/// A token of any sort, mostly one that is as it should be.
pub fn token(random: &mut Random) -> u32 {
    match random.below(12) {
        0 => random.bits() as u32,
        1 => random.below(32) as u32,
        2 => *random.pick(&[0, 2, 10, 18, 524_287, 524_288, 524_289, 524_292, 524_293, 2_097_151, u32::MAX]),
        3 => Token::End.code(),
        4 | 5 => Token::Start(random.short()).code(),
        6 | 7 => Token::Attribute(random.short()).code(),
        8 | 9 => Token::Value(random.short()).code(),
        _ => Token::Text(random.short()).code(),
    }
}

/// One fault, or a change that happens to be none, somewhere in the tokens.
pub fn in_tokens(random: &mut Random, tokens: &mut Vec<u32>) {
    if tokens.is_empty() {
        return tokens.push(token(random));
    }
    let last = tokens.len() - 1;
    let at = match random.below(4) {
        0 => 0,
        1 => last,
        _ => random.within(0, last),
    };
    match random.below(9) {
        0 => tokens[at] = token(random),
        1 => tokens[at] = tokens[at] / 8 * 8 + random.below(8) as u32,
        2 => tokens[at] ^= 1 << random.below(32),
        3 => {
            tokens.remove(at);
        }
        4 => tokens.insert(at, token(random)),
        5 => {
            let stretch = tokens[at..].iter().take(random.within(1, 4)).copied().collect::<Vec<u32>>();
            tokens.splice(at..at, stretch);
        }
        6 => tokens.swap(at, last.min(at + 1)),
        7 => tokens.truncate(at),
        _ => tokens.push(token(random)),
    }
}

/// Tokens without any order.
pub fn noise(random: &mut Random, most: usize) -> Vec<u32> {
    (0..random.within(0, most)).map(|_| token(random)).collect()
}
