//! Tokens, and their parts: a token is number × 8 + sort.
use crate::numbers::{ATTRIBUTE, END, SORTS, START, TEXT, VALUE};

/// The start of an element, by the number of its name.
pub const fn start(name: u16) -> u32 {
    of(START, name)
}

/// The end of an element.
pub const fn end() -> u32 {
    of(END, 0)
}

/// A text.
pub const fn text(number: u16) -> u32 {
    of(TEXT, number)
}

/// An attribute, by the number of its name.
pub const fn attribute(name: u16) -> u32 {
    of(ATTRIBUTE, name)
}

/// A value of the attribute before it.
pub const fn value(number: u16) -> u32 {
    of(VALUE, number)
}

/// The token's sort: one of [`START`], [`END`], [`TEXT`], [`ATTRIBUTE`] and [`VALUE`], or of no token.
pub const fn sort(token: u32) -> u32 {
    token % SORTS
}

/// The token's number.
pub const fn number(token: u32) -> u32 {
    token / SORTS
}

const fn of(sort: u32, number: u16) -> u32 {
    number as u32 * SORTS + sort
}
