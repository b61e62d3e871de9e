//! Fixed attributes: in schemas, in tables that no schema gives, and with a fault of every rule.

use crate::paper::grammar::{Attribute, Grammar, Kind};
use crate::paper::schema_file::MOST_FIXED;
use crate::paper::table::{bits, block_at, ALLOWED, ENTRIES, FIXED, KIND_SETS, REQUIRED};
use crate::paper::{numbers, table};
use crate::random::Random;

/// How many fixed attributes a schema is to have: none, one, 16, or between.
fn how_many(random: &mut Random) -> usize {
    match random.below(10) {
        0..=4 => 0,
        5 | 6 => 1,
        7 => MOST_FIXED,
        _ => random.within(2, MOST_FIXED - 1),
    }
}

/// Fixes attributes of a grammar.
pub fn in_grammar(random: &mut Random, grammar: &mut Grammar) {
    let count = how_many(random);
    fix(random, grammar, count);
}

/// Fixes CDATA attributes that are there or are added, so many if there are places for them.
fn fix(random: &mut Random, grammar: &mut Grammar, count: usize) {
    let mut left = count;
    for _ in 0..20 * count {
        if left == 0 {
            return;
        }
        let e = random.below(grammar.elements.len());
        let attributes = &mut grammar.elements[e].attributes;
        let any = random.below(64) as u16;
        let number = *random.pick(&[0, 1, 31, 32, 62, 63, any]);
        let value = Some(random.short());
        match attributes.iter_mut().find(|attribute| attribute.number == number) {
            Some(known) if known.kind == Kind::Cdata && known.fixed.is_none() => (known.required, known.fixed) = (false, value),
            Some(_) => continue,
            None => {
                attributes.push(Attribute { number, kind: Kind::Cdata, required: false, fixed: value });
                attributes.sort_by_key(|attribute| attribute.number);
            }
        }
        left -= 1;
    }
}

/// A schema file with 16 or 17 fixed attributes, one that is not CDATA, or one whose value is at its limit or past it.
pub fn broken_file(random: &mut Random, grammar: &Grammar) -> Vec<u8> {
    let count = grammar.elements.len();
    let mut file = vec![count as u32, grammar.root as u32];
    let kind = if random.chance(30) { random.within(1, 3) as u32 } else { 0 };
    let past = random.below(2);
    // All in one element, or spread over them.
    let (fixed, spread) = (MOST_FIXED + past, random.chance(50) && count > 1);
    let value = |random: &mut Random| match random.below(40) {
        0 => *random.pick(&[65_536, 65_537, 1 << 17, numbers::LARGEST]),
        1 => 65_535,
        _ => u32::from(random.short()),
    };
    for e in 0..count {
        let here = match spread {
            true => fixed * (e + 1) / count - fixed * e / count,
            false if e == count - 1 => fixed,
            false => 0,
        };
        file.extend([random.below(2) as u32, here as u32]);
        for number in 0..here as u32 {
            let odd = kind > 0 && random.chance(8);
            file.extend([number, if odd { kind } else { 0 }, 2, value(random)]);
        }
    }
    numbers::file_of(&file)
}

/// Gives fixed attributes to a proper table that has none.
pub fn in_table(random: &mut Random, words: &mut [u64]) {
    let mut places: Vec<(usize, usize)> = Vec::new();
    for e in 0..words[0] as usize {
        let block = &words[block_at(e)..];
        let keys = block[KIND_SETS] | block[KIND_SETS + 1] | block[KIND_SETS + 2];
        places.extend(bits(block[ALLOWED] & !block[REQUIRED] & !keys).into_iter().map(|bit| (e, bit)));
    }
    let count = how_many(random).min(places.len());
    while places.len() > count {
        places.swap_remove(random.below(places.len()));
    }
    places.sort_unstable();
    words[FIXED] = count as u64;
    for (k, (e, bit)) in places.into_iter().enumerate() {
        let value = u64::from(random.short());
        words[ENTRIES + 3 * k..ENTRIES + 3 * k + 3].copy_from_slice(&[e as u64, bit as u64, value]);
    }
}

/// Breaks one rule of the fixed attributes, if the table has what it takes.
pub fn break_table(random: &mut Random, words: &mut [u64]) {
    if words[FIXED] == 0 && random.chance(70) {
        in_table(random, words);
    }
    let count = words[FIXED].min(16) as usize;
    let at = ENTRIES + 3 * random.below(count.max(1));
    let block = block_at(words[at].min(47) as usize);
    let in_block = |set: u64| bits(set).first().map(|bit| *bit as u64);
    match random.below(14) {
        0 => words[FIXED] = *random.pick(&[17, 18, 255, 1 << 32, u64::MAX]),
        1 => words[FIXED] += 1,
        2 if count > 0 => words[FIXED] -= 1,
        3 | 4 if count > 1 => {
            // Not rising: one twice, or two in the other order.
            let (one, two) = (ENTRIES, ENTRIES + 3 * random.within(1, count - 1));
            match random.chance(50) {
                true => words.copy_within(one..one + 2, two),
                false => (0..3).for_each(|i| words.swap(one + i, two + i)),
            }
        }
        5 => words[at + 1] = in_block(!words[block + ALLOWED]).unwrap_or(64),
        6 => words[at + 1] = *random.pick(&[64, 65, 1 << 32, u64::MAX]),
        7 | 8 if count > 0 => {
            // The attribute becomes an ID or a reference, or required.
            let set = block + *random.pick(&[REQUIRED, REQUIRED, KIND_SETS, KIND_SETS + 1, KIND_SETS + 2]);
            words[set] |= 1 << (words[at + 1] & 63);
        }
        9 | 10 => words[at + 2] = *random.pick(&[65_536, 65_537, 1 << 32, u64::MAX]),
        11 if count > 0 => words[ENTRIES + 3 * (count - 1)] = *random.pick(&[words[0], words[0] + 1, 48, u64::MAX]),
        12 if count < 16 => words[ENTRIES + 3 * count + random.below(3 * (16 - count))] = 1 + random.below(3) as u64,
        _ => words[table::WORDS - 1 - random.below(49)] ^= 1 << random.below(64),
    }
}
