//! Spelling: tokens, lines and the blanks, comments and line ends around them.

use std::borrow::Cow;

use super::numbers;
use super::rng::Rng;
use crate::isa::{Place, Row, KEYS, REGISTERS, SETTING};

pub type Token = Cow<'static, str>;

/// Spellings that are nearly register names.
#[rustfmt::skip]
pub const NEAR_REGISTERS: [&str; 20] = [
    "a5", "a6", "R1", "r16", "r01", "r00", "r-1", "x1", "s2", "t3", "Zero", "ZERO", "SP", "gp1",
    "r", "ra1", "r1_", "_r1", "rr1", "r1.5",
];

/// Spellings that are nearly mnemonics.
#[rustfmt::skip]
pub const NEAR_MNEMONICS: [&str; 22] = [
    "ad", "addd", "add_", "_add", "add1", "subi", "lwu", "ldu", "sbu", "mv", "nop", "li", "j", "ret",
    "cmovn", "bgt", "ecal", "ecalls", "slliw", "mulhu", "and.", "r1",
];

/// A token of any sort, among them bad ones.
pub fn any_token(rng: &mut Rng) -> Token {
    match rng.below(12) {
        0..=2 => rng.pick(&[",", ":", "(", ")"]).into(),
        3 | 4 => rng.pick(&REGISTERS).into(),
        5 => rng.pick(&NEAR_REGISTERS).into(),
        6 => numbers::any(rng),
        // It fits every field.
        7 => numbers::fitting(rng, SETTING),
        8 => rng
            .pick(&[".config", ".text", ".r1", "._", ".Config", "."])
            .into(),
        9 => rng
            .pick(&[
                "$", "-", "+", "@", "\"", "'", ";", "%", "[", "]", "\\", "/", "*",
            ])
            .into(),
        10 => rng.pick(&KEYS).into(),
        _ => rng.pick(&NEAR_MNEMONICS).into(),
    }
}

/// A mnemonic in lower, upper or mixed case.
pub fn mnemonic(rng: &mut Rng, row: &Row) -> Token {
    match rng.below(5) {
        0 => row.mnemonic.to_uppercase().into(),
        1 => mixed_case(rng, row.mnemonic).into(),
        _ => row.mnemonic.into(),
    }
}

fn mixed_case(rng: &mut Rng, text: &str) -> String {
    let change = |letter: char| match rng.percent(50) {
        true => letter.to_ascii_uppercase(),
        false => letter,
    };
    text.chars().map(change).collect()
}

/// An instruction that a line takes.
pub fn instruction(rng: &mut Rng, row: &Row) -> Vec<Token> {
    let mut tokens = vec![mnemonic(rng, row)];
    for place in row.form.places() {
        tokens.push(match place {
            Place::Register => rng.pick(&REGISTERS).into(),
            Place::Number => {
                let field = row.form.field().expect("its number has a field");
                numbers::fitting(rng, field)
            }
            Place::Mark(mark) => (*mark).into(),
        });
    }
    tokens
}

/// A `.config` line that is taken.
pub fn setting(rng: &mut Rng) -> Vec<Token> {
    let key = rng.below(3);
    let value = match key {
        0 => 16 + 2 * rng.below(8),
        1 => 1 + rng.below(4),
        _ => 1 + rng.below(2),
    };
    let value = numbers::spelled(rng, value as i64);
    vec![".config".into(), KEYS[key].into(), value]
}

/// A directive that does nothing, with anything behind it that is not a bad token.
pub fn idle_directive(rng: &mut Rng) -> Vec<Token> {
    let names = [
        ".text", ".data", ".r1", ".Config", ".CONFIG", "._", ".config_", ".globl",
    ];
    let mut tokens = vec![rng.pick(&names).into()];
    for _ in 0..rng.below(5) {
        tokens.push(match rng.below(4) {
            0 => rng.pick(&REGISTERS).into(),
            1 => numbers::good(rng),
            2 => rng.pick(&["main", "config", "_", "R1"]).into(),
            _ => rng.pick(&[",", ":", "(", ")"]).into(),
        });
    }
    tokens
}

/// Writes tokens with blanks between them, and always where they would run together.
pub fn write_tokens(rng: &mut Rng, out: &mut Vec<u8>, tokens: &[Token]) {
    for (index, token) in tokens.iter().enumerate() {
        if index > 0 {
            let blank = gap(rng);
            let must = run_together(&tokens[index - 1], token);
            let blank = if must && blank.is_empty() { " " } else { blank };
            out.extend_from_slice(blank.as_bytes());
        }
        out.extend_from_slice(token.as_bytes());
    }
}

fn gap(rng: &mut Rng) -> &'static str {
    rng.pick(&["", "", "", " ", " ", " ", " ", "\t", "  ", " \t "])
}

fn run_together(left: &str, right: &str) -> bool {
    let word = |byte: u8| byte.is_ascii_alphanumeric() || byte == b'_';
    let open = |byte: u8| word(byte) || byte == b'.' || byte == b'-';
    matches!((left.bytes().last(), right.bytes().next()),
        (Some(left), Some(right)) if open(left) && word(right))
}

/// Writes a line: blanks at both ends, perhaps a comment, and its end.
pub fn write_line(rng: &mut Rng, out: &mut Vec<u8>, tokens: &[Token]) {
    edge(rng, out);
    write_tokens(rng, out, tokens);
    edge(rng, out);
    if rng.percent(15) {
        comment(rng, out);
    }
    end_line(rng, out);
}

/// A line that holds nothing.
pub fn write_empty_line(rng: &mut Rng, out: &mut Vec<u8>) {
    edge(rng, out);
    if rng.percent(50) {
        comment(rng, out);
    }
    end_line(rng, out);
}

/// Bytes that are trimmed from the ends of a line.
fn edge(rng: &mut Rng, out: &mut Vec<u8>) {
    let edges = [
        "", "", "", "", "", " ", "  ", "\t", "\x0b", "\x0c", "\r", " \x0c\t",
    ];
    out.extend_from_slice(rng.pick(&edges).as_bytes());
}

/// Whatever stands in a comment has no meaning, control bytes included.
fn comment(rng: &mut Rng, out: &mut Vec<u8>) {
    out.push(b'#');
    for _ in 0..rng.below(12) {
        out.push(match rng.below(8) {
            0 => rng.pick(b"#:$.\r\t\x00\x7f"),
            1 => b' ',
            _ => 33 + rng.below(94) as u8,
        });
    }
}

fn end_line(rng: &mut Rng, out: &mut Vec<u8>) {
    let end = if rng.percent(10) { "\r\n" } else { "\n" };
    out.extend_from_slice(end.as_bytes());
}
