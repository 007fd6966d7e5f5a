//! The oracle: what the Rust reference answers for a source or reads of a line, sources and lines
//! to ask it, and the lists of such answers.

mod answer;
mod edits;
pub mod falsified;
pub mod gen;
mod images;
pub mod isa;
mod limits;
mod lines;
pub mod list;
pub mod model;
mod ranges;
mod sources;
mod targets;
mod tokens;
mod vectors;
mod words;

pub use answer::{answer, Answer, Label, Settings};
pub use edits::Edit;
pub use images::image_of;
pub use limits::{answer_within, Asked, MOST_SOURCE_BYTES, MOST_WORDS};
pub use targets::{Target, Targeted};
pub use tokens::token_list;
pub use vectors::vector_list;
pub use words::word_list;
