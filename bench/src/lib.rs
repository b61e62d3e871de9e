//! The benchmark of Shrikemuff: the core, a straightforward Rust version of the same calls, and libxml2, on the same documents.
//! `bench/run` builds and runs it.

pub mod calls;
pub mod documents;
pub mod plain;
pub mod steps;
pub mod texts;
pub mod xml;
