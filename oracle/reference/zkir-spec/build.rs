//! Makes a crate of docs/src's zkir-spec. Its `lib.rs` names modules that are not among the files,
//! so its text is used from the memory constants on, beside the modules that there are.

include!("../source.rs");

const MODULES: [&str; 6] = [
    "config",
    "error",
    "instruction",
    "opcode",
    "program",
    "register",
];

/// The first line of `lib.rs` that does not depend on absent modules.
const CONSTANTS: &str = "/// Memory layout constants";

fn main() {
    let folder = files_of("zkir-spec");
    let mut text = String::new();
    for name in MODULES {
        text += &module(name, &folder.join(name).with_extension("rs"));
    }
    let lib = text_of(&folder.join("lib.rs"));
    let constants = lib.find(CONSTANTS).expect("lib.rs has memory constants");
    text += &lib[constants..];
    write("modules.rs", &text);
}
