//! Two tables whose contents of an element are alike: a model and one that was changed a little, runs with another end, long cycles.

use crate::case::Table;
use crate::paper::expression::Expression::{self, Choice, Name, Optional, Plus, Sequence, Star};
use crate::paper::grammar::{Content, Grammar, Model};
use crate::paper::table::{bits, block_at, COUNT, FIRST, FOLLOW, LAST, NAMES, NO_CHILD, WORDS};
use crate::paper::{occurrences, schema_file};
use crate::random::Random;

/// An element to compare: mostly one with a model.
pub fn element(random: &mut Random, grammar: &Grammar) -> u32 {
    let is_model = |e: &usize| matches!(grammar.elements[*e].content, Content::Model(_) | Content::Run(_));
    let models: Vec<usize> = (0..grammar.elements.len()).filter(is_model).collect();
    match random.below(12) {
        0 => *random.pick(&[grammar.elements.len() as u32, 47, 48, 1 << 16, 1 << 31, u32::MAX]),
        1..=3 => random.below(grammar.elements.len()) as u32,
        _ if models.is_empty() => random.below(grammar.elements.len()) as u32,
        _ => *random.pick(&models) as u32,
    }
}

/// The schema of a file with another model at an element; now and then with fewer elements.
pub fn altered(random: &mut Random, file: &[u8], element: u32) -> Table {
    let mut grammar = schema_file::read(file).expect("a schema's file");
    let least = (element as usize + 1).min(grammar.elements.len());
    if random.chance(25) {
        let least = if random.chance(50) { 1 } else { least };
        let count = random.within(least, grammar.elements.len());
        grammar.elements.truncate(count);
        grammar.root %= count;
    }
    let count = grammar.elements.len() as u16;
    for (e, declaration) in grammar.elements.iter_mut().enumerate() {
        let expression = match &declaration.content {
            Content::Model(model) if e == element as usize => other_model(random, below(&model.expression, count), count),
            Content::Model(model) if model.expression.names().iter().any(|name| *name >= count) => below(&model.expression, count),
            _ => continue,
        };
        declaration.content = match random.chance(3) || occurrences::of(&expression).ambiguous {
            true => Content::Empty,
            false => Content::Model(Model::new(expression)),
        };
    }
    Table::of_schema(grammar)
}

/// A model changed in up to three places, within the limits and not ambiguous.
fn other_model(random: &mut Random, mut expression: Expression, count: u16) -> Expression {
    for _ in 0..random.below(4) {
        let other = changed(random, &expression, count);
        if other.symbols().len() <= 255 && other.names().len() <= 64 && !occurrences::of(&other).ambiguous {
            expression = other;
        }
    }
    expression
}

/// The expression with every name below a count.
fn below(expression: &Expression, count: u16) -> Expression {
    map(expression, &mut |part| match part {
        Name(name) => Name(name % count),
        part => part,
    })
}

/// The expression with one of its parts another.
fn changed(random: &mut Random, expression: &Expression, count: u16) -> Expression {
    let mut parts = 0;
    map(expression, &mut |part| {
        parts += 1;
        part
    });
    let chosen = random.within(1, parts);
    let mut at = 0;
    map(expression, &mut |part| {
        at += 1;
        match at == chosen {
            true => other(random, part, count),
            false => part,
        }
    })
}

fn other(random: &mut Random, part: Expression, count: u16) -> Expression {
    let name = Box::new(Name(random.below(usize::from(count)) as u16));
    match (random.below(8), part) {
        (0, part) => Optional(Box::new(part)),
        (1, part) => Star(Box::new(part)),
        (2, part) => Plus(Box::new(part)),
        (3, part) => Choice(Box::new(part), name),
        (4, part) => Sequence(name, Box::new(part)),
        (5, Sequence(one, two)) => Choice(one, two),
        (5, Choice(one, two)) => Sequence(one, two),
        (_, Sequence(one, two) | Choice(one, two)) => *random.pick(&[one, two]).clone(),
        (_, Optional(one) | Star(one)) if random.chance(50) => Plus(one),
        (_, Plus(one)) if random.chance(50) => Star(one),
        (_, Optional(one) | Star(one) | Plus(one)) => *one,
        (_, Name(_)) => *name,
    }
}

/// Every part by `change`, those inside before those around them.
fn map(expression: &Expression, change: &mut dyn FnMut(Expression) -> Expression) -> Expression {
    let mut part = |one: &Expression| Box::new(map(one, change));
    let mapped = match expression {
        Sequence(one, two) => {
            let one = part(one);
            Sequence(one, part(two))
        }
        Choice(one, two) => {
            let one = part(one);
            Choice(one, part(two))
        }
        Optional(one) => Optional(part(one)),
        Star(one) => Star(part(one)),
        Plus(one) => Plus(part(one)),
        Name(name) => Name(*name),
    };
    change(mapped)
}

/// Proper words in which a run may end elsewhere, or no longer go on somewhere.
pub fn other_runs(random: &mut Random, words: &[u64], element: u32) -> Table {
    let mut words = words.to_vec();
    let block = &mut words[block_at(element.min(47) as usize)..];
    let n = block[COUNT] as usize;
    if n > 0 {
        for _ in 0..random.within(1, 3) {
            let k = random.below(n);
            match random.below(4) {
                0 => block[NO_CHILD] ^= 1,
                1 | 2 => block[LAST] ^= 1 << k,
                _ => {
                    let follow = bits(block[FOLLOW + k]);
                    block[FOLLOW + k] &= !follow.first().map_or(0, |bit| 1 << bit);
                }
            }
        }
    }
    Table::of_words(words)
}

/// Two cycles of one name: the old one ends with its last occurrence, the new one with all but one of its own.
pub fn cycles(random: &mut Random) -> (Table, Table) {
    let (one, two) = (random.within(1, 64), random.within(60, 64));
    let all = u64::MAX >> (64 - two);
    let refused = random.below(two);
    (cycle(one, 1 << (one - 1)), cycle(two, all & !(1 << refused)))
}

fn cycle(n: usize, last: u64) -> Table {
    let mut words = vec![0; WORDS];
    words[0] = 1;
    let block = &mut words[block_at(0)..];
    block[0] = 2;
    block[COUNT] = n as u64;
    block[FIRST] = 1;
    block[LAST] = last;
    for k in 0..n {
        block[NAMES + k] = 0;
        block[FOLLOW + k] = 1 << ((k + 1) % n);
    }
    Table::of_words(words)
}
