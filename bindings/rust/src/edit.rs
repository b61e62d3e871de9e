//! Edits, lists and groups of them, and what one that was done tells.
use crate::{numbers, Fault};

/// An edit: what is done, where, and with which tokens. Any numbers may stand in it; a wrong one is refused.
#[derive(Clone, Copy, Debug, PartialEq, Eq)]
pub struct Edit<'a> {
    /// one of [`numbers::INSERT`], `REMOVE`, `REPLACE`, `SET` and `DROP`
    pub operation: u32,
    /// the index of a token
    pub place: usize,
    /// the tokens that come, or name what goes
    pub piece: &'a [u32],
}

impl<'a> Edit<'a> {
    /// One element or one text goes before the token at a place.
    pub fn insert(place: usize, piece: &'a [u32]) -> Edit<'a> {
        Edit { operation: numbers::INSERT, place, piece }
    }

    /// The element or the text at a place goes.
    pub fn remove(place: usize) -> Edit<'a> {
        Edit { operation: numbers::REMOVE, place, piece: &[] }
    }

    /// One element or one text takes the place of the one at a place.
    pub fn replace(place: usize, piece: &'a [u32]) -> Edit<'a> {
        Edit { operation: numbers::REPLACE, place, piece }
    }

    /// An attribute and its values are added to the element at a place, or take the place of those there.
    pub fn set(place: usize, piece: &'a [u32]) -> Edit<'a> {
        Edit { operation: numbers::SET, place, piece }
    }

    /// The attribute whose token is the piece goes from the element at a place, with its values.
    pub fn drop(place: usize, piece: &'a [u32]) -> Edit<'a> {
        Edit { operation: numbers::DROP, place, piece }
    }

    /// The edit with which a list of numbers begins: operation, place, piece count and piece. `None` if the list ends inside it.
    pub fn read(numbers: &'a [u32]) -> Option<Edit<'a>> {
        match *numbers {
            [operation, place, count, ref rest @ ..] => {
                let piece = rest.get(..count as usize)?;
                Some(Edit { operation, place: place as usize, piece })
            }
            _ => None,
        }
    }

    /// The edit as numbers, which [`Edit::read`] reads: so it is kept, and put into a list for [`Table::list`](crate::Table::list). A place
    /// or a count over [`u32::MAX`] becomes that, which gets the same answer: there is no such place, and no such piece.
    pub fn numbers(self) -> impl Iterator<Item = u32> + 'a {
        let number = |length: usize| u32::try_from(length).unwrap_or(u32::MAX);
        let head = [self.operation, number(self.place), number(self.piece.len())];
        head.into_iter().chain(self.piece.iter().copied())
    }
}

/// An edit that was done.
#[derive(Clone, Copy, Debug, PartialEq, Eq)]
#[non_exhaustive]
pub struct Done<'b> {
    /// the document's new length
    pub used: usize,
    /// the new length less the old
    pub change: i32,
    /// the children looked at: children and texts of the touched parent, or of the element that is set or dropped, in the edited document,
    /// and of every element in the piece
    pub children: usize,
    /// the edit that takes this one back
    pub back: Edit<'b>,
}

/// What came of a list of edits.
#[derive(Clone, Copy, Debug, PartialEq, Eq)]
#[non_exhaustive]
pub struct Listed {
    /// the document's length now
    pub used: usize,
    /// how many edits were done; a refused one is not counted
    pub done: usize,
    /// the last edit that was run, if it was done, as then all were; else why it was refused, or the list itself
    pub last: Result<Last, Fault>,
}

/// The last edit of a list that was done. Both numbers are that edit's alone.
#[derive(Clone, Copy, Debug, PartialEq, Eq)]
#[non_exhaustive]
pub struct Last {
    /// the new length less the old
    pub change: i32,
    /// the children looked at, as in [`Done`]
    pub children: usize,
}

/// A group of edits that was done.
#[derive(Clone, Copy, Debug, PartialEq, Eq)]
#[non_exhaustive]
pub struct Grouped {
    /// the document's new length
    pub used: usize,
    /// the new length less the old
    pub change: i32,
}
