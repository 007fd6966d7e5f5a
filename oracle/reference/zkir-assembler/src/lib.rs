//! zkir-assembler of docs/src, built from the files as they stand. `build.rs` says how.

include!(concat!(env!("OUT_DIR"), "/modules.rs"));
