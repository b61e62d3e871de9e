//! Tokens and shape.

use super::{DEPTH, TOKENS};

pub const START: u32 = 1;
pub const END: u32 = 2;
pub const TEXT: u32 = 3;
pub const ATTRIBUTE: u32 = 4;
pub const VALUE: u32 = 5;

pub fn sort(token: u32) -> u32 {
    token & 7
}

pub fn number(token: u32) -> u32 {
    token >> 3
}

pub fn is_token(token: u32, wanted: u32) -> bool {
    sort(token) == wanted && number(token) <= 65_535
}

/// What stands before a token, as far as it decides which tokens may come.
#[derive(Clone, Copy)]
enum Before {
    Start,
    Attribute(u32),
    Value(u32),
    Other,
}

/// The tokens are one element of good shape.
pub fn has_shape(tokens: &[u32]) -> bool {
    if tokens.len() < 2 || tokens.len() > TOKENS {
        return false;
    }
    let mut depth = 0;
    let mut before = Before::Other;
    for (place, &token) in tokens.iter().enumerate() {
        let number = number(token);
        // All tokens but the first stand inside the root.
        if number > 65_535 || (depth == 0 && place > 0) {
            return false;
        }
        before = match (sort(token), before) {
            (START | END | TEXT, Before::Attribute(_)) => return false,
            (START, _) if depth < DEPTH => {
                depth += 1;
                Before::Start
            }
            (END, _) if depth > 0 && number == 0 => {
                depth -= 1;
                Before::Other
            }
            (TEXT, _) if depth > 0 => Before::Other,
            (ATTRIBUTE, Before::Start) => Before::Attribute(number),
            (ATTRIBUTE, Before::Value(earlier)) if earlier < number => Before::Attribute(number),
            (VALUE, Before::Attribute(attribute) | Before::Value(attribute)) => Before::Value(attribute),
            _ => return false,
        };
    }
    depth == 0
}

/// The used part of a buffer, if it has shape.
pub fn document(buffer: &[u32], used: u64) -> Option<&[u32]> {
    if used > buffer.len() as u64 {
        return None;
    }
    let tokens = &buffer[..used as usize];
    if has_shape(tokens) {
        Some(tokens)
    } else {
        None
    }
}

/// For each start, the place of its end. Other places hold 0.
pub fn ends(tokens: &[u32]) -> Vec<u32> {
    let mut ends = vec![0; tokens.len()];
    let mut open = Vec::with_capacity(DEPTH);
    for (place, &token) in tokens.iter().enumerate() {
        match sort(token) {
            START => open.push(place),
            END => {
                if let Some(start) = open.pop() {
                    ends[start] = place as u32;
                }
            }
            _ => {}
        }
    }
    ends
}

/// The place after the start's last attribute value.
pub fn after_attributes(tokens: &[u32], start: usize) -> usize {
    let mut at = start + 1;
    while matches!(sort(tokens[at]), ATTRIBUTE | VALUE) {
        at += 1;
    }
    at
}

/// The length of the element or text at the place.
pub fn item_length(tokens: &[u32], place: usize) -> usize {
    let mut depth = 0;
    for (length, &token) in tokens[place..].iter().enumerate() {
        match sort(token) {
            START => depth += 1,
            END => depth -= 1,
            _ => {}
        }
        if depth == 0 {
            return length + 1;
        }
    }
    unreachable!("an element of a document with shape has its end")
}

/// How many elements are open before the place.
pub fn depth_at(tokens: &[u32], place: usize) -> usize {
    let count = |wanted| tokens[..place].iter().filter(|&&token| sort(token) == wanted).count();
    count(START) - count(END)
}

/// The most elements inside one another.
pub fn deepest(tokens: &[u32]) -> usize {
    let mut depth = 0;
    let mut most = 0;
    for &token in tokens {
        match sort(token) {
            START => {
                depth += 1;
                most = most.max(depth);
            }
            END => depth -= 1,
            _ => {}
        }
    }
    most
}

/// The start of the element around the place; `None` for the root's own start.
pub fn parent(tokens: &[u32], place: usize) -> Option<usize> {
    let mut closed = 0;
    for (start, &token) in tokens[..place].iter().enumerate().rev() {
        match sort(token) {
            END => closed += 1,
            START if closed == 0 => return Some(start),
            START => closed -= 1,
            _ => {}
        }
    }
    None
}
