//! The paper, written as trees: each module is one of its sections, or of the requests to it.

pub mod compare;
pub mod derivatives;
pub mod dtd;
pub mod edits;
pub mod expression;
pub mod grammar;
pub mod groups;
pub mod judgement;
pub mod lists;
pub mod numbers;
pub mod occurrences;
pub mod program;
pub mod schema_file;
pub mod spots;
pub mod table;
pub mod tally;
pub mod tree;

/// Most tokens of a document, a piece and a document file.
pub const MOST_TOKENS: usize = 8_192;
/// Deepest element of a document, the root being at 1.
pub const DEEPEST: usize = 64;

/// The answer numbers.
pub mod answer {
    pub const DONE: u32 = 0;
    pub const BROKEN: u32 = 1;
    pub const SCHEMA: u32 = 2;
    pub const AMBIGUOUS: u32 = 3;
    pub const SHAPE: u32 = 4;
    pub const ROOM: u32 = 5;
    pub const PLACE: u32 = 6;
    pub const NAME: u32 = 7;
    pub const ATTRIBUTES: u32 = 8;
    pub const CONTENT: u32 = 9;
    pub const ROOT: u32 = 10;
    pub const ID_TWICE: u32 = 11;
    pub const NO_ID: u32 = 12;
    pub const TABLE: u32 = 13;
    pub const DTD: u32 = 14;
    pub const COUNTS: u32 = 15;
    pub const KIND: u32 = 16;
}
