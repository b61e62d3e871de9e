//! Random schemas within the limits, and damaged schema files.

use super::sizes::{self, ENDLESS};
use super::{expressions, fixed};
use crate::paper::expression::Expression::{self, Choice, Name, Optional, Plus, Sequence, Star};
use crate::paper::grammar::{Attribute, Content, Declaration, Grammar, Kind, Model};
use crate::paper::{numbers, schema_file};
use crate::random::Random;

/// A schema within the limits, no model of which is ambiguous. Nearly all have a valid document.
pub fn schema(random: &mut Random) -> Grammar {
    let count = match random.below(10) {
        0 => 1,
        1 => 48,
        2 => random.within(7, 47),
        _ => random.within(2, 6),
    };
    let mut grammar = Grammar { root: random.below(count), elements: Vec::new() };
    let model_percent = *random.pick(&[30, 50, 70, 95]);
    let many_attributes = random.chance(8);
    for e in 0..count {
        let content = match random.chance(if e == grammar.root { 92 } else { model_percent }) {
            true => Content::Model(Model::new(model(random, e, count))),
            false if random.chance(50) => Content::Text,
            false => Content::Empty,
        };
        let attributes = attributes(random, many_attributes);
        grammar.elements.push(Declaration { content, attributes });
    }
    match random.below(8) {
        0 | 1 => keyed_list(random, &mut grammar),
        2 | 3 => nested(random, &mut grammar),
        4 => {
            let e = random.below(count);
            at_limits(random, &mut grammar, e);
        }
        5 if random.chance(6) => (0..count).for_each(|e| at_limits(random, &mut grammar, e)),
        _ => {}
    }
    if random.chance(95) {
        make_finite(random, &mut grammar);
    }
    fixed::in_grammar(random, &mut grammar);
    grammar
}

fn model(random: &mut Random, element: usize, count: usize) -> Expression {
    let all: Vec<u16> = (0..count as u16).collect();
    let names = match random.chance(70) && element + 1 < count {
        true => &all[element + 1..],
        false => &all[..],
    };
    let leaves = match random.below(40) {
        0 => 64,
        1 => random.within(8, 63),
        _ => random.within(1, 6),
    };
    let drawn = expressions::unambiguous(random, leaves, names);
    match random.chance(2) {
        true => expressions::at_most_symbols(random, drawn),
        false => drawn,
    }
}

/// Attributes of one element: mostly few, now and then all 64; the ID at any place, at most one.
fn attributes(random: &mut Random, many: bool) -> Vec<Attribute> {
    let percent = match many {
        true => *random.pick(&[10, 50, 100]),
        false => *random.pick(&[0, 2, 4, 8]),
    };
    let required_percent = *random.pick(&[0, 30, 60]);
    let mut chosen: Vec<Attribute> = Vec::new();
    for number in 0..64 {
        let wanted = random.chance(percent) || (number == 63 && percent > 0 && random.chance(20));
        if wanted {
            let has_id = chosen.iter().any(|attribute| attribute.kind == Kind::Id);
            let kind = match random.below(4) {
                0 if !has_id => Kind::Id,
                1 => Kind::Idref,
                2 => Kind::Idrefs,
                _ => Kind::Cdata,
            };
            chosen.push(Attribute { number, kind, required: random.chance(required_percent), fixed: None });
        }
    }
    chosen
}

/// The root holds any number of elements with IDs and of elements with references.
fn keyed_list(random: &mut Random, grammar: &mut Grammar) {
    let count = grammar.elements.len();
    if count < 3 {
        return;
    }
    let (held, refers) = ((grammar.root + 1) % count, (grammar.root + 2) % count);
    let (one, two) = (Box::new(Name(held as u16)), Box::new(Name(refers as u16)));
    let expression = match random.below(3) {
        0 => Star(Box::new(Choice(one, two))),
        1 => Sequence(Box::new(Plus(one)), Box::new(Star(two))),
        _ => Sequence(Box::new(Star(one)), Box::new(Star(two))),
    };
    grammar.elements[grammar.root].content = Content::Model(Model::new(expression));
    let number = *random.pick(&[0, 1, 7, 62, 63]);
    let required = random.chance(60);
    grammar.elements[held].attributes = vec![Attribute { number, kind: Kind::Id, required, fixed: None }];
    let kind = *random.pick(&[Kind::Idref, Kind::Idrefs]);
    let required = random.chance(60);
    grammar.elements[refers].attributes = vec![Attribute { number: 63 - number, kind, required, fixed: None }];
    for e in [held, refers] {
        if random.chance(60) {
            grammar.elements[e].content = Content::Empty;
        }
    }
}

/// The root may hold itself, or another that may hold the root.
fn nested(random: &mut Random, grammar: &mut Grammar) {
    let count = grammar.elements.len();
    let root = grammar.root;
    let other = random.below(count);
    let name = |e: usize| Box::new(Name(e as u16));
    if other == root {
        let expression = match random.chance(50) {
            true => Optional(name(root)),
            false => Star(name(root)),
        };
        grammar.elements[root].content = Content::Model(Model::new(expression));
        return;
    }
    let inner = match random.chance(50) {
        true => Optional(name(root)),
        false => Star(Box::new(Choice(name(root), name(other)))),
    };
    grammar.elements[root].content = Content::Model(Model::new(Star(name(other))));
    grammar.elements[other].content = Content::Model(Model::new(inner));
}

/// Brings one element to a limit: 64 names, 255 symbols, both, or all 64 attributes.
fn at_limits(random: &mut Random, grammar: &mut Grammar, e: usize) {
    let names: Vec<u16> = (0..grammar.elements.len() as u16).collect();
    let leaves = *random.pick(&[1, 32, 63, 64, 64]);
    let mut expression = expressions::unambiguous(random, leaves, &names);
    if random.chance(60) {
        expression = expressions::at_most_symbols(random, expression);
    }
    grammar.elements[e].content = Content::Model(Model::new(expression));
    if random.chance(30) {
        grammar.elements[e].attributes = attributes(random, true);
    }
}

/// Ends what goes on without end below the root.
fn make_finite(random: &mut Random, grammar: &mut Grammar) {
    loop {
        let sizes = sizes::of(grammar);
        if sizes.tokens[grammar.root] < ENDLESS {
            return;
        }
        let endless: Vec<usize> = (0..grammar.elements.len()).filter(|e| sizes.tokens[*e] >= ENDLESS).collect();
        let e = *random.pick(&endless);
        grammar.elements[e].content = if random.chance(50) { Content::Text } else { Content::Empty };
    }
}

/// A schema file with a fault, or noise, or one that happens to be good.
pub fn damaged(random: &mut Random, grammar: &Grammar) -> Vec<u8> {
    let mut file = schema_file::numbers_of(grammar);
    match random.below(11) {
        0 => return noise(random),
        1 => return fixed::broken_file(random, grammar),
        2 | 3 => return numbers::file_of(&schema_file::numbers_of(&drawn_models(random, grammar))),
        4 => return over_a_limit(random),
        5 => {
            let mut bytes = numbers::file_of(&file);
            super::files::damage_bytes(random, &mut bytes);
            return bytes;
        }
        6 => file.push(random.below(3) as u32),
        7 => file.truncate(random.below(file.len())),
        8 => {
            let at = random.below(file.len());
            file.remove(at);
        }
        _ => {
            for _ in 0..random.within(1, 2) {
                let at = random.below(file.len());
                file[at] = match random.below(3) {
                    0 => (file[at] + 1).min(numbers::LARGEST),
                    1 => file[at].saturating_sub(1),
                    _ => *random.pick(&[0, 1, 2, 3, 4, 5, 47, 48, 49, 52, 53, 63, 64, 65, 127, 255, 256, 2_097_151]),
                };
            }
        }
    }
    numbers::file_of(&file)
}

fn noise(random: &mut Random) -> Vec<u8> {
    let small = random.chance(70);
    (0..random.below(60)).map(|_| if small { random.below(7) as u8 } else { random.bits() as u8 }).collect()
}

/// The schema with other models, drawn without asking whether they are ambiguous.
pub fn drawn_models(random: &mut Random, grammar: &Grammar) -> Grammar {
    let names: Vec<u16> = (0..grammar.elements.len().min(4) as u16).collect();
    let mut drawn = Grammar { root: grammar.root, elements: Vec::new() };
    for _ in &grammar.elements {
        let leaves = random.within(1, 5);
        let unary = *random.pick(&[0, 20, 50]);
        let expression = expressions::any(random, leaves, &names, unary);
        drawn.elements.push(Declaration { content: Content::Model(Model::new(expression)), attributes: attributes(random, false) });
    }
    drawn
}

/// A file of one element that is at a limit or one past it.
fn over_a_limit(random: &mut Random) -> Vec<u8> {
    let past = random.below(2);
    let mut file = vec![1, 0];
    match random.below(4) {
        0 => {
            let names = 64 + past;
            file.extend([2, 2 * names as u32 - 1]);
            file.extend(expressions::in_sequence(random, names, &[0]).symbols());
            file.push(0);
        }
        1 => {
            let symbols = 255 + past;
            file.extend([2, symbols as u32]);
            file.extend((1..symbols).map(|_| random.within(2, 4) as u32));
            file.extend([5, 0]);
        }
        2 => {
            file.extend([0, 64 + past as u32]);
            file.extend((0..64 + past as u32).flat_map(|number| [number, 0, 1]));
        }
        _ => {
            let count = 48 + past as u32;
            file = vec![count, random.within(46, 48) as u32];
            file.extend((0..count).flat_map(|_| [0, 0]));
        }
    }
    numbers::file_of(&file)
}
