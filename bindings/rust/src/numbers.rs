//! The constants of `include/shrikemuff.h`, which says what each is, under its names without `SHRIKE_`.

// The version that this binding is written for.
pub const VERSION_MAJOR: u32 = 2;
pub const VERSION_MINOR: u32 = 0;
pub const VERSION_PATCH: u32 = 0;
pub const VERSION: u32 = VERSION_MAJOR * 1_000_000 + VERSION_MINOR * 1_000 + VERSION_PATCH;

// Limits: the most that is taken.
pub const MOST_TOKENS: usize = 8_192;
pub const MOST_BYTES: usize = 24_576;
pub const MOST_DEEP: usize = 64;
pub const MOST_NUMBER: u32 = 65_535;
pub const MOST_VALUE: u32 = 2_097_151;
pub const MOST_ELEMENTS: usize = 48;
pub const MOST_SYMBOLS: usize = 255;
pub const MOST_NAMES: usize = 64;
pub const MOST_ATTRIBUTES: usize = 64;
pub const MOST_FIXED: usize = 16;
pub const MOST_SCHEMA_FILE: usize = 21_650;
pub const MOST_BACK: usize = 8_195;
pub const MOST_EDITS: usize = 256;

// Sorts of tokens.
pub const START: u32 = 1;
pub const END: u32 = 2;
pub const TEXT: u32 = 3;
pub const ATTRIBUTE: u32 = 4;
pub const VALUE: u32 = 5;
pub const SORTS: u32 = 8;

// Kinds of elements.
pub const EMPTY: u32 = 0;
pub const TEXT_ONLY: u32 = 1;
pub const MODEL: u32 = 2;

// Symbols of a model. The element e is NAMED + e.
pub const SEQUENCE: u32 = 0;
pub const CHOICE: u32 = 1;
pub const OPTIONAL: u32 = 2;
pub const ZERO_OR_MORE: u32 = 3;
pub const ONE_OR_MORE: u32 = 4;
pub const NAMED: u32 = 5;

// Kinds of attributes.
pub const CDATA: u32 = 0;
pub const ID: u32 = 1;
pub const IDREF: u32 = 2;
pub const IDREFS: u32 = 3;

// Statuses of attributes.
pub const REQUIRED: u32 = 0;
pub const IMPLIED: u32 = 1;
pub const FIXED: u32 = 2;

// The table: its words (of 64 bits: 53,400 bytes), those of a block, where the first block begins, the places in a block; where the count of
// fixed attributes stands, where their entries begin, and the words of an entry.
pub const TABLE_WORDS: usize = 6_675;
pub const BLOCK_WORDS: usize = 138;
pub const BLOCKS_AT: usize = 2;
pub const KIND_AT: usize = 0;
pub const ALLOWED_AT: usize = 1;
pub const REQUIRED_AT: usize = 2;
pub const ID_AT: usize = 3;
pub const IDREF_AT: usize = 4;
pub const IDREFS_AT: usize = 5;
pub const COUNT_AT: usize = 6;
pub const NO_CHILD_AT: usize = 7;
pub const FIRST_AT: usize = 8;
pub const LAST_AT: usize = 9;
pub const NAMES_AT: usize = 10;
pub const FOLLOW_AT: usize = 74;
pub const FIXED_COUNT_AT: usize = 6_626;
pub const FIXED_AT: usize = 6_627;
pub const FIXED_WORDS: usize = 3;

// The places of the sequence buffer of a comparison, at least.
pub const SEQUENCE_PLACES: usize = 4_290;

// The places of counts.
pub const COUNT_PLACES: usize = 48;

// Answer numbers.
pub const DONE: u32 = 0;
pub const BROKEN: u32 = 1;
pub const SCHEMA: u32 = 2;
pub const AMBIGUOUS: u32 = 3;
pub const SHAPE: u32 = 4;
pub const ROOM: u32 = 5;
pub const PLACE: u32 = 6;
pub const NAME: u32 = 7;
pub const ATTRIBUTES: u32 = 8;
pub const CONTENT: u32 = 9;
pub const ROOT: u32 = 10;
pub const ID_TWICE: u32 = 11;
pub const NO_ID: u32 = 12;
pub const TABLE: u32 = 13;
pub const DTD_TEXT: u32 = 14;
pub const COUNTS: u32 = 15;
pub const NOT_COMPARED: u32 = 16;

// Operations.
pub const INSERT: u32 = 1;
pub const REMOVE: u32 = 2;
pub const REPLACE: u32 = 3;
pub const SET: u32 = 4;
pub const DROP: u32 = 5;
