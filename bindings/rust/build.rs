//! Links the static library that `bindings/build` writes to the repository's target/staticlib. ZKASM_LIB_DIR names another folder.

use std::env;
use std::path::PathBuf;

fn main() {
    let folder = match env::var_os("ZKASM_LIB_DIR") {
        Some(folder) => PathBuf::from(folder),
        None => PathBuf::from(env::var_os("CARGO_MANIFEST_DIR").expect("cargo sets it"))
            .join("../../target/staticlib"),
    };
    let library = folder.join("libzkasm.a");
    if !library.is_file() {
        panic!(
            "{} is missing: run `bindings/build`, or set ZKASM_LIB_DIR to the folder that has it",
            library.display()
        );
    }
    println!("cargo:rerun-if-env-changed=ZKASM_LIB_DIR");
    println!("cargo:rerun-if-changed={}", library.display());
    println!("cargo:rustc-link-search=native={}", folder.display());
    println!("cargo:rustc-link-lib=static=zkasm");
}
