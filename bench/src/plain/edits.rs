//! The five edits: each is a splice, made in a scratch list, judged there and copied back.

use super::counts;
use super::judge;
use super::keys::Keys;
use super::shape::{self, is_token, number, sort, ATTRIBUTE, END, START, TEXT, VALUE};
use super::table::Table;
use super::{Fault, DEPTH, TOKENS};
use crate::calls::{Answer, Counts, Edit, DROP, INSERT, REMOVE, REPLACE, SET};

/// What an edit does: `cut` tokens from `at` on give way to `put`. `touched` is the element around it, none for the root itself.
pub struct Splice<'a> {
    pub at: usize,
    pub cut: usize,
    pub put: &'a [u32],
    touched: Option<usize>,
}

impl Splice<'_> {
    /// The tokens behind it.
    fn made(&self, tokens: &[u32]) -> Vec<u32> {
        let mut edited = Vec::with_capacity(tokens.len() - self.cut + self.put.len());
        edited.extend_from_slice(&tokens[..self.at]);
        edited.extend_from_slice(self.put);
        edited.extend_from_slice(&tokens[self.at + self.cut..]);
        edited
    }
}

/// The tokens behind an edit in good form, at a place for it. They are not judged.
pub fn spliced(tokens: &[u32], edit: &Edit) -> Vec<u32> {
    plan(tokens, edit.operation, edit.place, &edit.piece).expect("a place for the edit").made(tokens)
}

/// One edit. Where `back` is none, what takes it back is not written, and asks for no room.
#[allow(clippy::too_many_arguments)]
pub fn edit(
    words: &[u64],
    buffer: &mut [u32],
    used: u64,
    operation: u32,
    place: u64,
    piece: &[u32],
    back: Option<&mut [u32]>,
    counts: &mut Counts,
    keys: Keys,
) -> Answer {
    match made(words, buffer, used, operation, place, piece, back, counts, keys) {
        Ok((new, children)) => {
            Answer { number: 0, place: 0, used: new as u64, change: new as i32 - used as i32, children: children as u32 }
        }
        Err(fault) => refused(fault, used),
    }
}

/// The answer to an edit that is refused.
pub fn refused(fault: Fault, used: u64) -> Answer {
    Answer { number: fault.number, place: fault.place, used, change: 0, children: 0 }
}

/// The new length, and how many children were looked at.
#[allow(clippy::too_many_arguments)]
fn made(
    words: &[u64],
    buffer: &mut [u32],
    used: u64,
    operation: u32,
    place: u64,
    piece: &[u32],
    back: Option<&mut [u32]>,
    counts: &mut Counts,
    keys: Keys,
) -> Result<(usize, usize), Fault> {
    let table = Table::proper(words).ok_or(13u32)?;
    let tokens = shape::document(buffer, used).ok_or(4u32)?;
    let splice = form(tokens, buffer.len(), operation, place, piece)?;
    let new = tokens.len() - splice.cut + splice.put.len();
    let (by, with) = taken_back(tokens, operation, piece, &splice);
    let back = match back {
        Some(back) => Some(back.get_mut(..3 + with.len()).ok_or(5u32)?),
        None => None,
    };
    let went = &tokens[splice.at..splice.at + splice.cut];
    let moved = counts::moved(table, counts, went, splice.put).ok_or(15u32)?;

    let edited = splice.made(tokens);
    let of_piece = judge::starts(&edited, splice.at, splice.at + splice.put.len());
    let children = judge::judge(table, &edited, splice.touched.into_iter().chain(of_piece), keys)?;

    if let Some(back) = back {
        back[..3].copy_from_slice(&[by, place as u32, with.len() as u32]);
        back[3..].copy_from_slice(with);
    }
    *counts = moved;
    let old = tokens.len();
    buffer[..new].copy_from_slice(&edited);
    if new < old {
        buffer[new..old].fill(0);
    }
    Ok((new, children))
}

/// What an edit does, if its form, its place and its size in a buffer of `room` places are good; else the number of what is not.
pub fn form<'a>(tokens: &[u32], room: usize, operation: u32, place: u64, piece: &'a [u32]) -> Result<Splice<'a>, u32> {
    if !(INSERT..=DROP).contains(&operation) {
        return Err(6);
    }
    if !is_piece(operation, piece) {
        return Err(4);
    }
    let splice = plan(tokens, operation, place, piece).ok_or(6u32)?;
    let new = tokens.len() - splice.cut + splice.put.len();
    if new > TOKENS.min(room) || is_too_deep(tokens, &splice) {
        return Err(5);
    }
    Ok(splice)
}

fn is_piece(operation: u32, piece: &[u32]) -> bool {
    piece.len() <= TOKENS
        && match operation {
            INSERT | REPLACE => is_text(piece) || shape::has_shape(piece),
            REMOVE => piece.is_empty(),
            SET => piece.len() > 1 && is_token(piece[0], ATTRIBUTE) && piece[1..].iter().all(|&token| is_token(token, VALUE)),
            _ => piece.len() == 1 && is_token(piece[0], ATTRIBUTE),
        }
}

fn is_text(piece: &[u32]) -> bool {
    piece.len() == 1 && is_token(piece[0], TEXT)
}

/// `None` if the place is not one for this edit. The piece is good.
fn plan<'a>(tokens: &[u32], operation: u32, place: u64, piece: &'a [u32]) -> Option<Splice<'a>> {
    if place >= tokens.len() as u64 {
        return None;
    }
    let place = place as usize;
    let there = sort(tokens[place]);
    match operation {
        INSERT if place > 0 && matches!(there, START | TEXT | END) => {
            Some(Splice { at: place, cut: 0, put: piece, touched: shape::parent(tokens, place) })
        }
        REMOVE if place > 0 && matches!(there, START | TEXT) => {
            let cut = shape::item_length(tokens, place);
            Some(Splice { at: place, cut, put: piece, touched: shape::parent(tokens, place) })
        }
        REPLACE if matches!(there, START | TEXT) && !(place == 0 && is_text(piece)) => {
            let cut = shape::item_length(tokens, place);
            Some(Splice { at: place, cut, put: piece, touched: shape::parent(tokens, place) })
        }
        SET if there == START => {
            let (at, cut) = attribute(tokens, place, number(piece[0]));
            Some(Splice { at, cut, put: piece, touched: Some(place) })
        }
        DROP if there == START => match attribute(tokens, place, number(piece[0])) {
            (_, 0) => None,
            (at, cut) => Some(Splice { at, cut, put: &[], touched: Some(place) }),
        },
        _ => None,
    }
}

/// Where the attribute stands and its length with its values; where it would stand and 0 if the start has none of that number.
fn attribute(tokens: &[u32], start: usize, wanted: u32) -> (usize, usize) {
    let after = shape::after_attributes(tokens, start);
    let not_before = |&place: &usize| sort(tokens[place]) == ATTRIBUTE && number(tokens[place]) >= wanted;
    match (start + 1..after).find(not_before) {
        Some(at) if number(tokens[at]) == wanted => {
            let values = tokens[at + 1..].iter().take_while(|&&token| sort(token) == VALUE).count();
            (at, 1 + values)
        }
        Some(at) => (at, 0),
        None => (after, 0),
    }
}

/// The operation that takes an edit back, and its piece.
fn taken_back<'a>(tokens: &'a [u32], operation: u32, piece: &'a [u32], splice: &Splice) -> (u32, &'a [u32]) {
    let went = &tokens[splice.at..splice.at + splice.cut];
    match operation {
        INSERT => (REMOVE, &[]),
        REMOVE => (INSERT, went),
        REPLACE => (REPLACE, went),
        SET if went.is_empty() => (DROP, &piece[..1]),
        _ => (SET, went),
    }
}

fn is_too_deep(tokens: &[u32], splice: &Splice) -> bool {
    shape::depth_at(tokens, splice.at) + shape::deepest(splice.put) > DEPTH
}
