//! The fixed list of sources and images with their answers: those by hand, the made ones, and the
//! falsified ones.

use crate::falsified;
use crate::images::{self, write_images};
use crate::sources::{self, write_sources};

/// Sources with answers that the reference cannot give.
const BY_HAND: &str = include_str!("../lists/by_hand.txt");

/// The text of `crates/test_vectors/stdin`.
pub fn vector_list() -> String {
    let mut out = format!(
        "# Sources and images with their answers, for the program vectors. The format is described in\n\
         # oracle/README.md. Made by `make-list`: the records of lists/by_hand.txt; chosen sources and\n\
         # each kind of `gen` with seeds {} to {}, as the Rust reference answers; chosen images,\n\
         # images of programs with seeds {} to {} and damaged ones with seeds {} to {}, as `model`\n\
         # answers, which follows document 01 alone; and falsified records.\n",
        sources::SEEDS.start,
        sources::SEEDS.end - 1,
        images::WHOLE.start,
        images::WHOLE.end - 1,
        images::DAMAGED.start,
        images::DAMAGED.end - 1
    );
    let (_, by_hand) = BY_HAND.split_once("\n\n").expect("records behind comments");
    out.push('\n');
    out += by_hand;
    write_sources(&mut out);
    write_images(&mut out);
    out += &falsified::VECTORS.records(&out);
    out
}
