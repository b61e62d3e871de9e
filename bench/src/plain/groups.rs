//! A group of edits: they are made on the second buffer, each tested for form alone, and the last document is judged and copied back.

use super::edits::{form, Splice};
use super::judge;
use super::keys::Keys;
use super::lists::{requests, Request};
use super::shape;
use super::table::Table;
use super::Fault;
use crate::calls::Grouped;

pub fn group(words: &[u64], buffer: &mut [u32], used: u64, list: &[u32], second: &mut [u32], keys: Keys) -> Grouped {
    match made(words, buffer, used, list, second, keys) {
        Ok(new) => Grouped { number: 0, place: 0, used: new as u64, change: new as i32 - used as i32, which: 0 },
        Err((fault, which)) => Grouped { number: fault.number, place: fault.place, used, change: 0, which },
    }
}

/// The new length; or the fault, and which edit has it.
fn made(words: &[u64], buffer: &mut [u32], used: u64, list: &[u32], second: &mut [u32], keys: Keys) -> Result<usize, (Fault, u32)> {
    let before = |number: u32| (Fault::from(number), 0);
    let table = Table::proper(words).ok_or_else(|| before(13))?;
    let tokens = shape::document(buffer, used).ok_or_else(|| before(4))?;
    let requests = requests(list).map_err(before)?;
    if second.len() < buffer.len() {
        return Err(before(5));
    }
    let (old, mut new) = (tokens.len(), tokens.len());
    second[..old].copy_from_slice(tokens);
    for (k, Request { operation, place, piece }) in requests.into_iter().enumerate() {
        let splice = form(&second[..new], buffer.len(), operation, place, piece).map_err(|number| (number.into(), k as u32 + 1))?;
        new = splice_into(second, new, &splice);
    }
    let last = &second[..new];
    judge::judge(table, last, judge::starts(last, 0, new), keys).map_err(|fault| (fault, 0))?;
    buffer[..new].copy_from_slice(last);
    if new < old {
        buffer[new..old].fill(0);
    }
    Ok(new)
}

/// Makes a splice of the first `length` tokens, with 0 up to where they ended: the new length.
fn splice_into(tokens: &mut [u32], length: usize, splice: &Splice) -> usize {
    let behind = splice.at + splice.put.len();
    let new = length - splice.cut + splice.put.len();
    tokens.copy_within(splice.at + splice.cut..length, behind);
    tokens[splice.at..behind].copy_from_slice(splice.put);
    if new < length {
        tokens[new..length].fill(0);
    }
    new
}
