//! Tables that no schema gives: proper ones, and ones with a fault.

use super::fixed;
use crate::paper::table::{bits, block_at, ALLOWED, BLOCK, COUNT, FIRST, FIXED, FOLLOW, KIND_SETS, LAST, NAMES, NO_CHILD, REQUIRED, WORDS};
use crate::random::Random;

/// A proper table, its sets drawn.
pub fn proper(random: &mut Random) -> Vec<u64> {
    let elements = match random.below(6) {
        0 => 48,
        1 => 1,
        _ => random.within(2, 5),
    };
    let mut words = vec![0; WORDS];
    words[0] = elements as u64;
    words[1] = random.below(elements) as u64;
    for e in 0..elements {
        let at = block_at(e);
        let block = &mut words[at..at + BLOCK];
        attribute_sets(random, block);
        block[0] = random.below(6).min(2) as u64;
        if block[0] == 2 {
            model(random, block, elements);
        }
    }
    fixed::in_table(random, &mut words);
    words
}

fn attribute_sets(random: &mut Random, block: &mut [u64]) {
    let allowed = match random.below(6) {
        0 => random.bits(),
        1 => random.bits() & random.bits() & random.bits() | 1 << 63,
        2 => u64::MAX,
        _ => random.bits() & random.bits() & random.bits() & random.bits(),
    };
    block[ALLOWED] = allowed;
    block[REQUIRED] = allowed & random.bits() & random.bits() & random.bits() & random.bits();
    let (one, two) = (random.bits(), random.bits());
    block[KIND_SETS + 1] = allowed & one & two;
    block[KIND_SETS + 2] = allowed & one & !two;
    let left = allowed & !one;
    if left != 0 && random.chance(60) {
        block[KIND_SETS] = match random.chance(50) {
            true => 1 << left.trailing_zeros(),
            false => 1 << (63 - left.leading_zeros()),
        };
    }
}

fn model(random: &mut Random, block: &mut [u64], elements: usize) {
    let n = match random.below(8) {
        0 => 64,
        1 => random.within(7, 63),
        _ => random.within(1, 6),
    };
    block[COUNT] = n as u64;
    block[NO_CHILD] = random.below(2) as u64;
    for k in 0..n {
        block[NAMES + k] = random.below(elements) as u64;
    }
    let names = block[NAMES..NAMES + n].to_vec();
    let lowest = u64::MAX >> (64 - n);
    block[LAST] = random.bits() & lowest | (random.bits() & 1) << (n - 1);
    block[FIRST] = one_of_each_name(random, &names);
    for k in 0..n {
        block[FOLLOW + k] = one_of_each_name(random, &names);
    }
}

/// A set of occurrences, at most one of each name.
fn one_of_each_name(random: &mut Random, names: &[u64]) -> u64 {
    let mut set: u64 = 0;
    let percent = *random.pick(&[20, 60, 100]);
    let from = random.below(names.len());
    for i in 0..names.len() {
        let k = (from + i) % names.len();
        let taken = (0..names.len()).any(|j| set >> j & 1 == 1 && names[j] == names[k]);
        if !taken && random.chance(percent) {
            set |= 1 << k;
        }
    }
    set
}

/// Changes one word, mostly one that means something.
pub fn change_word(random: &mut Random, words: &mut [u64]) {
    let elements = words[0].max(1) as usize;
    let element = match random.chance(85) {
        true => random.below(elements),
        false => random.below(48),
    };
    let n = words[block_at(element) + COUNT].min(64) as usize;
    let part = match random.below(12) {
        0 => 0,
        1 => ALLOWED,
        2 => REQUIRED,
        3 | 4 => KIND_SETS + random.below(3),
        5 => COUNT,
        6 => NO_CHILD,
        7 => FIRST,
        8 => LAST,
        9 => NAMES + random.below(64.min(n + 1)),
        10 => FOLLOW + random.below(64.min(n + 1)),
        _ => random.below(BLOCK),
    };
    let at = match random.below(12) {
        0 => random.below(2),
        1 => random.below(words.len()),
        _ => block_at(element) + part,
    };
    let old = words[at];
    let allowed = bits(words[block_at(element) + ALLOWED]);
    words[at] = match random.below(11) {
        0 => old.wrapping_add(1),
        1 => old.wrapping_sub(1),
        2 => old ^ 1 << random.below(64),
        3 => old ^ 1 << n.min(63),
        4 => old | 1 << 63,
        5 => *random.pick(&[0, 1, 2, 3, 47, 48, 49, 64, 65, 1 << 32, u64::MAX]),
        6 | 7 if !allowed.is_empty() => old ^ 1 << random.pick(&allowed),
        8 | 9 if n > 0 => old ^ 1 << random.below(n),
        _ => old.rotate_left(32),
    };
}

/// Brings a table to another length.
pub fn change_length(random: &mut Random, words: &mut Vec<u64>) {
    let length = match random.below(7) {
        0 => 0,
        5 => FIXED,
        1 => random.below(WORDS),
        2 => WORDS + random.within(1, 200),
        3 => block_at(words[0].min(47) as usize),
        4 => WORDS + 1,
        _ => WORDS - 1,
    };
    words.resize(length, 0);
}
