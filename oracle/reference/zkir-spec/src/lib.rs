//! zkir-spec of docs/src, built from the files as they stand. `build.rs` says how.

include!(concat!(env!("OUT_DIR"), "/modules.rs"));

// What the original `lib.rs` exports of the modules that there are, as far as it is used.
pub use config::{Config, ConfigError};
pub use error::ZkIrError;
pub use instruction::Instruction;
pub use opcode::Opcode;
pub use program::Program;
pub use register::Register;
