//! Makers of random cases.

pub mod bad_texts;
pub mod compares;
pub mod documents;
pub mod edits;
pub mod expressions;
pub mod faults;
pub mod files;
pub mod fixed;
pub mod group;
pub mod groups;
pub mod keys;
pub mod lent;
pub mod lists;
pub mod pieces;
pub mod programs;
pub mod runs;
pub mod schemas;
pub mod sizes;
pub mod tables;
pub mod tallies;
pub mod texts;
