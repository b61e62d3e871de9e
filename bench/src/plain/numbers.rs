//! Files of seven-bit groups: numbers, and document files.

use super::TOKENS;
use crate::calls::Count;

pub const LARGEST: u32 = 2_097_151;

/// A file read from the front.
pub struct Numbers<'a> {
    bytes: &'a [u8],
}

impl<'a> Numbers<'a> {
    pub fn of(bytes: &'a [u8]) -> Numbers<'a> {
        Numbers { bytes }
    }

    pub fn is_at_end(&self) -> bool {
        self.bytes.is_empty()
    }

    /// The next number; 1 if it is broken or the file ends.
    pub fn next(&mut self) -> Result<u32, u32> {
        let mut value = 0;
        for group in 0..3 {
            let (&byte, rest) = self.bytes.split_first().ok_or(1u32)?;
            self.bytes = rest;
            value |= u32::from(byte & 127) << (7 * group);
            if byte < 128 {
                return if byte == 0 && group > 0 { Err(1) } else { Ok(value) };
            }
        }
        Err(1)
    }
}

fn bytes_of(number: u32) -> usize {
    match number {
        0..=127 => 1,
        128..=16_383 => 2,
        _ => 3,
    }
}

/// Reads into a scratch list first: a refusal must leave `tokens` as it was.
pub fn read_document(file: &[u8], tokens: &mut [u32]) -> Count {
    let room = tokens.len().min(TOKENS);
    let mut read = Vec::with_capacity(room.min(file.len()));
    let mut numbers = Numbers::of(file);
    while !numbers.is_at_end() {
        match numbers.next() {
            Err(number) => return Count { number, count: 0 },
            Ok(_) if read.len() == room => return Count { number: 5, count: 0 },
            Ok(token) => read.push(token),
        }
    }
    tokens[..read.len()].copy_from_slice(&read);
    Count { number: 0, count: read.len() as u32 }
}

pub fn write_document(tokens: &[u32], file: &mut [u8]) -> Count {
    let refused = |number| Count { number, count: 0 };
    if tokens.len() > TOKENS {
        return refused(5);
    }
    if tokens.iter().any(|&token| token > LARGEST) {
        return refused(4);
    }
    let count: usize = tokens.iter().map(|&token| bytes_of(token)).sum();
    if count > file.len() {
        return refused(5);
    }
    let mut at = 0;
    for &token in tokens {
        let mut rest = token;
        while rest > 127 {
            file[at] = rest as u8 | 128;
            rest >>= 7;
            at += 1;
        }
        file[at] = rest as u8;
        at += 1;
    }
    Count { number: 0, count: count as u32 }
}
