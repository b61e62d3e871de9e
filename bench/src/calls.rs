//! The twelve calls and their answers, as every contender of the benchmark offers them.

#[derive(Clone, Copy, Debug, PartialEq, Eq)]
pub struct Count {
    pub number: u32,
    pub count: u32,
}

#[derive(Clone, Copy, Debug, PartialEq, Eq)]
pub struct Spot {
    pub number: u32,
    pub offset: u64,
}

#[derive(Clone, Copy, Debug, PartialEq, Eq)]
pub struct Verdict {
    pub number: u32,
    pub place: u32,
}

#[derive(Clone, Copy, Debug, PartialEq, Eq)]
pub struct Answer {
    pub number: u32,
    pub place: u32,
    pub used: u64,
    pub change: i32,
    pub children: u32,
}

#[derive(Clone, Copy, Debug, PartialEq, Eq)]
pub struct Listed {
    pub last: Answer,
    pub done: u32,
}

#[derive(Clone, Copy, Debug, PartialEq, Eq)]
pub struct Grouped {
    pub number: u32,
    pub place: u32,
    pub used: u64,
    pub change: i32,
    pub which: u32,
}

#[derive(Clone, Copy, Debug, PartialEq, Eq)]
pub struct Compared {
    pub number: u32,
    pub takes_all: u32,
    pub length: u32,
}

/// The elements of each name.
pub type Counts = [i32; 48];

pub const INSERT: u32 = 1;
pub const REMOVE: u32 = 2;
pub const REPLACE: u32 = 3;
pub const SET: u32 = 4;
pub const DROP: u32 = 5;

/// An edit as it is handed to a call.
#[derive(Clone, Debug)]
pub struct Edit {
    pub operation: u32,
    pub place: u64,
    pub piece: Vec<u32>,
}

impl Edit {
    /// The edit as the numbers of a list.
    pub fn numbers(&self) -> impl Iterator<Item = u32> + '_ {
        [self.operation, self.place as u32, self.piece.len() as u32].into_iter().chain(self.piece.iter().copied())
    }
}

/// What the core and the plain version both do. A buffer is the whole slice; `used` says how much of it is the document. An edit writes the
/// one that takes it back into `back`. The counts of a document are lent beside it. A group is worked on
/// `second`.
pub trait Calls {
    fn name(&self) -> &'static str;
    fn read(&self, file: &[u8], tokens: &mut [u32]) -> Count;
    fn write(&self, tokens: &[u32], file: &mut [u8]) -> Count;
    fn import(&self, text: &[u8], file: &mut [u8]) -> Count;
    fn names(&self, text: &[u8], names: &mut [u8]) -> Count;
    fn import_spot(&self, text: &[u8]) -> Spot;
    fn translate(&self, file: &[u8], table: &mut [u64]) -> u32;
    fn check(&self, table: &[u64], buffer: &[u32], used: u64, counts: &mut Counts) -> Verdict;
    #[allow(clippy::too_many_arguments)]
    fn edit(
        &self,
        table: &[u64],
        buffer: &mut [u32],
        used: u64,
        operation: u32,
        place: u64,
        piece: &[u32],
        back: &mut [u32],
        counts: &mut Counts,
    ) -> Answer;
    fn list(&self, table: &[u64], buffer: &mut [u32], used: u64, list: &[u32], counts: &mut Counts) -> Listed;
    fn group(&self, table: &[u64], buffer: &mut [u32], used: u64, list: &[u32], second: &mut [u32]) -> Grouped;
    fn elements(&self, table: &[u64], counts: &Counts, name: u32) -> Count;
    fn compare(&self, old: &[u64], new: &[u64], element: u32, sequence: &mut [u32]) -> Compared;
}
