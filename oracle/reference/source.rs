// Shared by the two build scripts: where the reference's files are.

use std::path::{Path, PathBuf};

/// Where docs/src stands when `ZKIR_SRC` does not say it, seen from the repository's root.
const USUAL_PLACE: &str = "../shared/docs/src";

/// The `src` folder of one crate of the reference. Without it there is nothing to build, and the
/// build ends with one sentence.
fn files_of(crate_name: &str) -> PathBuf {
    println!("cargo:rerun-if-env-changed=ZKIR_SRC");
    let root = Path::new(env!("CARGO_MANIFEST_DIR")).join("../../..");
    let place = std::env::var("ZKIR_SRC").unwrap_or_else(|_| USUAL_PLACE.to_string());
    let folder = root.join(place).join(crate_name).join("src");
    folder.canonicalize().unwrap_or_else(|_| {
        eprintln!("docs/src is not at hand: set ZKIR_SRC to its path");
        std::process::exit(1)
    })
}

/// A file's text; the build is made again when the file changes.
fn text_of(file: &Path) -> String {
    println!("cargo:rerun-if-changed={}", file.display());
    std::fs::read_to_string(file).unwrap_or_else(|error| {
        eprintln!("{} cannot be read: {error}", file.display());
        std::process::exit(1)
    })
}

/// A module line for a file that is built where it stands.
fn module(name: &str, file: &Path) -> String {
    println!("cargo:rerun-if-changed={}", file.display());
    format!("#[path = {:?}]\npub mod {name};\n", file.display().to_string())
}

/// Writes a file of the build's own and answers its path.
fn write(name: &str, text: &str) -> PathBuf {
    let out = std::env::var_os("OUT_DIR").expect("cargo sets OUT_DIR");
    let file = Path::new(&out).join(name);
    std::fs::write(&file, text).expect("OUT_DIR can be written");
    file
}
