//! The proved library beside the Rust reference, in bulk: `compare`, `bench` and `fuzz` are made of
//! these parts.

pub mod arguments;
pub mod desk;
pub mod differences;
pub mod edits;
pub mod hostile;
pub mod interface;
pub mod large;
pub mod lengths;
pub mod lent;
pub mod tally;
