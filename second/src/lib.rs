//! The second program of Shrikemuff: the paper written once more, as trees, and makers of random cases.

pub mod case;
pub mod edges;
pub mod fixed_edges;
pub mod make;
pub mod paper;
pub mod random;
pub mod saved;
mod told;
