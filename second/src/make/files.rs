//! Files for the reader and tokens for the writer.

use crate::paper::{numbers, MOST_TOKENS};
use crate::random::Random;

/// A number with a form, often at the edge of one.
fn number(random: &mut Random) -> u32 {
    match random.below(4) {
        0 => random.below(128) as u32,
        1 => *random.pick(&[0, 1, 127, 128, 129, 16_383, 16_384, 16_385, 2_097_150, 2_097_151]),
        2 => random.below(numbers::LARGEST as usize + 1) as u32 >> random.below(21),
        _ => random.below(numbers::LARGEST as usize + 1) as u32,
    }
}

/// How many tokens, around a limit now and then.
fn count(random: &mut Random) -> usize {
    match random.below(60) {
        0 => random.within(MOST_TOKENS - 2, MOST_TOKENS + 2),
        1 => random.within(MOST_TOKENS, 20_000),
        2 => random.below(MOST_TOKENS),
        3..=9 => 0,
        _ => random.within(1, 24),
    }
}

/// Room around what is needed.
pub fn room(random: &mut Random, needed: usize) -> usize {
    match random.below(8) {
        0 => 0,
        1 => needed.saturating_sub(1),
        2 => random.below(needed + 1),
        3 | 4 => needed,
        5 => needed + random.within(1, 9),
        _ => needed + random.below(40) * random.below(40),
    }
}

/// A broken number, or one that is broken only at the end of a file.
fn broken(random: &mut Random) -> Vec<u8> {
    let low = 128 + random.below(128) as u8;
    let high = 128 + random.below(128) as u8;
    match random.below(8) {
        0 => vec![128, 0],
        1 => vec![low, 0],
        2 => vec![low, high, 0],
        3 => vec![low, high, 128, 1],
        4 => vec![low, high, 255],
        5 => vec![255, 255, 255, 127],
        6 => vec![low],
        _ => vec![low, high],
    }
}

/// Puts a broken number, another byte or an early end into a file.
pub fn damage_bytes(random: &mut Random, file: &mut Vec<u8>) {
    let at = random.below(file.len() + 1);
    match random.below(5) {
        0 | 1 => {
            file.splice(at..at, broken(random));
        }
        2 if at < file.len() => file[at] = random.bits() as u8,
        3 => file.truncate(at),
        _ => file.extend(broken(random)),
    }
}

/// Bytes that stand in a buffer before a call.
pub fn old_bytes(random: &mut Random, count: usize) -> Vec<u8> {
    (0..count).map(|_| random.bits() as u8).collect()
}

/// Tokens that stand in a buffer before a call: any, or all one.
pub fn old_tokens(random: &mut Random, count: usize) -> Vec<u32> {
    match random.below(3) {
        0 => vec![random.bits() as u32; count],
        1 => vec![*random.pick(&[1, 2, 11]); count],
        _ => (0..count).map(|_| random.bits() as u32).collect(),
    }
}

/// A file and a buffer for the reader.
pub fn to_read(random: &mut Random) -> (Vec<u8>, Vec<u32>) {
    let tokens: Vec<u32> = (0..count(random)).map(|_| number(random)).collect();
    let mut file = numbers::file_of(&tokens);
    if random.chance(40) {
        damage_bytes(random, &mut file);
    }
    if random.chance(5) {
        let length = random.below(30);
        file = old_bytes(random, length);
    }
    let room = room(random, tokens.len());
    (file, old_tokens(random, room))
}

/// Tokens and a buffer for the writer.
pub fn to_write(random: &mut Random) -> (Vec<u32>, Vec<u8>) {
    let mut tokens: Vec<u32> = (0..count(random)).map(|_| number(random)).collect();
    let needed = numbers::file_of(&tokens).len();
    if random.chance(30) && !tokens.is_empty() {
        let at = random.below(tokens.len());
        tokens[at] = match random.below(3) {
            0 => numbers::LARGEST + 1,
            1 => random.bits() as u32,
            _ => u32::MAX,
        };
    }
    let room = room(random, needed);
    (tokens, old_bytes(random, room))
}
