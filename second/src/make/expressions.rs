//! Random content expressions.

use crate::paper::expression::Expression::{self, Choice, Name, Optional, Plus, Sequence, Star};
use crate::paper::occurrences;
use crate::random::Random;

/// The most symbols and the most names of a model.
pub const MOST_SYMBOLS: usize = 255;
pub const MOST_NAMES: usize = 64;

/// An expression with this many names, each of them from `names`; about `unary` of a hundred parts are optional or repeated.
pub fn any(random: &mut Random, leaves: usize, names: &[u16], unary: usize) -> Expression {
    let part = if leaves <= 1 {
        Name(*random.pick(names))
    } else {
        let left = match random.below(4) {
            0 => 1,
            1 => leaves - 1,
            _ => random.within(1, leaves - 1),
        };
        let one = Box::new(any(random, left, names, unary));
        let two = Box::new(any(random, leaves - left, names, unary));
        match random.chance(60) {
            true => Sequence(one, two),
            false => Choice(one, two),
        }
    };
    match random.chance(unary) {
        true => wrapped(random, part),
        false => part,
    }
}

fn wrapped(random: &mut Random, part: Expression) -> Expression {
    let part = Box::new(part);
    match random.below(3) {
        0 => Optional(part),
        1 => Star(part),
        _ => Plus(part),
    }
}

/// An expression within the limits that is not ambiguous, with this many names.
pub fn unambiguous(random: &mut Random, leaves: usize, names: &[u16]) -> Expression {
    let mut unary = *random.pick(&[10, 30, 50, 70]);
    for _ in 0..10 {
        let drawn = match random.chance(70) {
            true => differing(any(random, leaves, &[0], unary), &shuffled(random, names)),
            false => any(random, leaves, names, unary),
        };
        if drawn.symbols().len() <= MOST_SYMBOLS && !occurrences::of(&drawn).ambiguous {
            return drawn;
        }
        unary = unary * 2 / 3;
    }
    in_sequence(random, leaves, names)
}

/// Names in sequence, some of them equal: never ambiguous.
pub fn in_sequence(random: &mut Random, leaves: usize, names: &[u16]) -> Expression {
    let mut whole = Name(*random.pick(names));
    for _ in 1..leaves {
        let name = Box::new(Name(*random.pick(names)));
        whole = match random.chance(50) {
            true => Sequence(name, Box::new(whole)),
            false => Sequence(Box::new(whole), name),
        };
    }
    whole
}

/// The names one after another, again from the front when all are used.
fn differing(shape: Expression, names: &[u16]) -> Expression {
    rename(&shape.marked(), &|k| names[usize::from(k) % names.len()])
}

fn rename(expression: &Expression, name: &dyn Fn(u16) -> u16) -> Expression {
    let part = |one: &Expression| Box::new(rename(one, name));
    match expression {
        Sequence(one, two) => Sequence(part(one), part(two)),
        Choice(one, two) => Choice(part(one), part(two)),
        Optional(one) => Optional(part(one)),
        Star(one) => Star(part(one)),
        Plus(one) => Plus(part(one)),
        Name(k) => Name(name(*k)),
    }
}

fn shuffled(random: &mut Random, names: &[u16]) -> Vec<u16> {
    let mut names = names.to_vec();
    for i in (1..names.len()).rev() {
        let j = random.within(0, i);
        names.swap(i, j);
    }
    names
}

/// The expression brought to exactly 255 symbols, and still not ambiguous.
pub fn at_most_symbols(random: &mut Random, expression: Expression) -> Expression {
    let missing = MOST_SYMBOLS - expression.symbols().len();
    let drawn = wrap_parts(random, expression.clone(), missing);
    if !occurrences::of(&drawn).ambiguous {
        return drawn;
    }
    // What is optional as a whole begins, ends and goes on as before.
    (0..missing).fold(expression, |whole, _| Optional(Box::new(whole)))
}

/// Puts this many operators over parts of the expression.
fn wrap_parts(random: &mut Random, expression: Expression, count: usize) -> Expression {
    if count == 0 {
        return expression;
    }
    let here = random.within(0, count);
    let below = count - here;
    let inner = match expression {
        Name(_) => (0..below).fold(expression, |part, _| wrapped(random, part)),
        Optional(one) => Optional(Box::new(wrap_parts(random, *one, below))),
        Star(one) => Star(Box::new(wrap_parts(random, *one, below))),
        Plus(one) => Plus(Box::new(wrap_parts(random, *one, below))),
        Sequence(one, two) => {
            let left = random.within(0, below);
            Sequence(Box::new(wrap_parts(random, *one, left)), Box::new(wrap_parts(random, *two, below - left)))
        }
        Choice(one, two) => {
            let left = random.within(0, below);
            Choice(Box::new(wrap_parts(random, *one, left)), Box::new(wrap_parts(random, *two, below - left)))
        }
    };
    (0..here).fold(inner, |part, _| wrapped(random, part))
}
