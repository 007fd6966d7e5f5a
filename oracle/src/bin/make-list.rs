//! Writes the lists that are made to their places below the repository given, or `..`.

use std::path::PathBuf;

fn main() -> std::io::Result<()> {
    let root = PathBuf::from(std::env::args().nth(1).unwrap_or_else(|| "..".to_string()));
    std::fs::write(root.join("crates/test_tokens/stdin"), oracle::token_list())?;
    std::fs::write(root.join("crates/test_words/stdin"), oracle::word_list())?;
    std::fs::write(root.join("crates/test_vectors/stdin"), oracle::vector_list())
}
