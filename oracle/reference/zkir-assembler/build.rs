//! Makes a crate of docs/src's zkir-assembler. `first_pass` and its items are private, so the
//! build takes a copy of `assembler.rs`, its text unchanged, with one function appended.

include!("../source.rs");

const MODULES: [&str; 4] = ["encoder", "error", "lexer", "parser"];

const ACCESSOR: &str = r#"
/// What the oracle asks of `first_pass`: the labels in the order entered, each with its address,
/// and the number of instructions.
pub fn labels_and_words(source: &str) -> Result<(Vec<(String, u64)>, usize)> {
    let (items, addresses, _) = first_pass(source)?;
    let words = items.iter().filter(|item| matches!(item, Item::Instruction(_))).count();
    let labels = items.into_iter().filter_map(|item| match item {
        Item::Label(name) => Some((addresses[&name], name)),
        _ => None,
    });
    Ok((labels.map(|(address, name)| (name, address)).collect(), words))
}
"#;

fn main() {
    let folder = files_of("zkir-assembler");
    let mut text = String::new();
    for name in MODULES {
        text += &module(name, &folder.join(name).with_extension("rs"));
    }
    let assembler = text_of(&folder.join("assembler.rs")) + ACCESSOR;
    text += &module("assembler", &write("assembler.rs", &assembler));
    write("modules.rs", &text);
}
