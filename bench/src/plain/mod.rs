//! The straightforward version: the twelve calls in safe Rust, as one writes them without proofs.
//!
//! It promises what the core promises. It trusts no caller: table and shape are tested at each call. It judges in the paper's
//! order. A refusal leaves lent memory as it was.
//!
//! There are two of it, which differ in one thing: how an ID met twice is found (`Keys`).

mod compare;
mod counts;
mod dtd;
mod edits;
mod groups;
mod judge;
mod keys;
mod lists;
mod model;
mod numbers;
mod schema;
mod shape;
mod table;

use crate::calls::{Answer, Calls, Compared, Count, Counts, Grouped, Listed, Spot, Verdict};
pub use compare::PLACES;
pub use edits::spliced;
pub use keys::Keys;
pub use table::{FIXED, WORDS};

/// Most tokens of a document or a piece.
pub const TOKENS: usize = 8192;
/// Most elements inside one another.
pub const DEPTH: usize = 64;
/// Most edits of a list.
pub const EDITS: usize = 256;
/// Most numbers of an edit that takes one back: three, and its piece.
pub const BACK: usize = 3 + TOKENS;

pub struct Plain {
    pub keys: Keys,
}

impl Calls for Plain {
    fn name(&self) -> &'static str {
        match self.keys {
            Keys::Pairs => "plain",
            Keys::Field => "plain, bit field",
        }
    }

    #[inline(never)]
    fn read(&self, file: &[u8], tokens: &mut [u32]) -> Count {
        numbers::read_document(file, tokens)
    }

    #[inline(never)]
    fn write(&self, tokens: &[u32], file: &mut [u8]) -> Count {
        numbers::write_document(tokens, file)
    }

    #[inline(never)]
    fn import(&self, text: &[u8], file: &mut [u8]) -> Count {
        put(dtd::read(text).map(|declared| declared.file()), file)
    }

    #[inline(never)]
    fn names(&self, text: &[u8], names: &mut [u8]) -> Count {
        put(dtd::read(text).map(|declared| declared.names()), names)
    }

    #[inline(never)]
    fn import_spot(&self, text: &[u8]) -> Spot {
        dtd::read(text).err().unwrap_or(Spot { number: 0, offset: 0 })
    }

    #[inline(never)]
    fn translate(&self, file: &[u8], table: &mut [u64]) -> u32 {
        match schema::translate(file, table) {
            Ok(()) => 0,
            Err(number) => number,
        }
    }

    #[inline(never)]
    fn check(&self, table: &[u64], buffer: &[u32], used: u64, counts: &mut Counts) -> Verdict {
        match judge::check(table, buffer, used, counts, self.keys) {
            Ok(()) => Verdict { number: 0, place: 0 },
            Err(fault) => Verdict { number: fault.number, place: fault.place },
        }
    }

    #[inline(never)]
    fn edit(
        &self,
        table: &[u64],
        buffer: &mut [u32],
        used: u64,
        operation: u32,
        place: u64,
        piece: &[u32],
        back: &mut [u32],
        counts: &mut Counts,
    ) -> Answer {
        edits::edit(table, buffer, used, operation, place, piece, Some(back), counts, self.keys)
    }

    #[inline(never)]
    fn list(&self, table: &[u64], buffer: &mut [u32], used: u64, list: &[u32], counts: &mut Counts) -> Listed {
        lists::list(table, buffer, used, list, counts, self.keys)
    }

    #[inline(never)]
    fn group(&self, table: &[u64], buffer: &mut [u32], used: u64, list: &[u32], second: &mut [u32]) -> Grouped {
        groups::group(table, buffer, used, list, second, self.keys)
    }

    #[inline(never)]
    fn elements(&self, table: &[u64], counts: &Counts, name: u32) -> Count {
        match counts::elements(table, counts, name) {
            Ok(count) => Count { number: 0, count },
            Err(number) => Count { number, count: 0 },
        }
    }

    #[inline(never)]
    fn compare(&self, old: &[u64], new: &[u64], element: u32, sequence: &mut [u32]) -> Compared {
        match compare::compare(old, new, element, sequence) {
            Ok(None) => Compared { number: 0, takes_all: 1, length: 0 },
            Ok(Some(length)) => Compared { number: 0, takes_all: 0, length: length as u32 },
            Err(number) => Compared { number, takes_all: 0, length: 0 },
        }
    }
}

/// What was made of a text goes into the first bytes, if there is room.
fn put(made: Result<Vec<u8>, Spot>, bytes: &mut [u8]) -> Count {
    match made {
        Err(Spot { number, .. }) => Count { number, count: 0 },
        Ok(made) if made.len() > bytes.len() || made.len() > u32::MAX as usize => Count { number: 5, count: 0 },
        Ok(made) => {
            bytes[..made.len()].copy_from_slice(&made);
            Count { number: 0, count: made.len() as u32 }
        }
    }
}

/// A refusal: its number, and its place, which is 0 except for 7 to 12.
#[derive(Clone, Copy, Debug, PartialEq, Eq)]
pub struct Fault {
    pub number: u32,
    pub place: u32,
}

impl Fault {
    fn at(number: u32, place: usize) -> Fault {
        Fault { number, place: place as u32 }
    }
}

impl From<u32> for Fault {
    fn from(number: u32) -> Fault {
        Fault { number, place: 0 }
    }
}

/// The members of a set, rising.
fn members(mut set: u64) -> impl Iterator<Item = usize> {
    std::iter::from_fn(move || {
        if set == 0 {
            return None;
        }
        let k = set.trailing_zeros() as usize;
        set &= set - 1;
        Some(k)
    })
}

#[cfg(test)]
mod tests;
