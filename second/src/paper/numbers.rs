//! "Files of seven-bit groups": numbers, and the reader and writer of document files.

use super::{answer, MOST_TOKENS};

/// The largest number of three bytes.
pub const LARGEST: u32 = 2_097_151;

/// A file ends inside a number, a fourth byte is called for, or the form is not the shortest.
#[derive(Debug, PartialEq)]
pub struct Broken;

/// The number at the front of a file and the count of its bytes.
pub fn number(file: &[u8]) -> Result<(u32, usize), Broken> {
    let last = file.iter().take(3).position(|byte| *byte < 128).ok_or(Broken)?;
    if last > 0 && file[last] == 0 {
        return Err(Broken);
    }
    let value = file[..=last].iter().rev().fold(0, |value, byte| value * 128 + u32::from(byte % 128));
    Ok((value, last + 1))
}

/// The shortest form of a number that has one.
pub fn form(number: u32) -> Vec<u8> {
    assert!(number <= LARGEST, "no form for {number}");
    let groups = [number % 128, number / 128 % 128, number / 16_384];
    let last = groups.iter().rposition(|group| *group > 0).unwrap_or(0);
    (0..=last).map(|i| groups[i] as u8 + if i < last { 128 } else { 0 }).collect()
}

/// A file of these numbers.
pub fn file_of(numbers: &[u32]) -> Vec<u8> {
    numbers.iter().flat_map(|number| form(*number)).collect()
}

/// The reader: the tokens, or the number of its refusal.
pub fn read(file: &[u8], room: usize) -> Result<Vec<u32>, u32> {
    let mut tokens = Vec::new();
    let mut rest = file;
    while !rest.is_empty() {
        let (token, bytes) = number(rest).map_err(|_| answer::BROKEN)?;
        if tokens.len() == room.min(MOST_TOKENS) {
            return Err(answer::ROOM);
        }
        tokens.push(token);
        rest = &rest[bytes..];
    }
    Ok(tokens)
}

/// The writer: the bytes, or the number of its refusal.
pub fn write(tokens: &[u32], room: usize) -> Result<Vec<u8>, u32> {
    if tokens.len() > MOST_TOKENS {
        return Err(answer::ROOM);
    }
    if tokens.iter().any(|token| *token > LARGEST) {
        return Err(answer::SHAPE);
    }
    let file = file_of(tokens);
    if file.len() > room {
        return Err(answer::ROOM);
    }
    Ok(file)
}
