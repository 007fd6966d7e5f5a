//! How the sources of each kind are made.

use super::numbers;
use super::rng::Rng;
use super::spelling::{
    any_token, idle_directive, instruction, setting as good_setting, write_empty_line, write_line,
    write_tokens, Token, NEAR_MNEMONICS, NEAR_REGISTERS,
};
use crate::isa::{Place, Row, KEYS, ROWS, SETTING};

pub fn short_line(rng: &mut Rng) -> Vec<u8> {
    // Half of them at full length: the shorter ones are few.
    let tokens = rng.pick(&[1, 2, 3, 3, 4, 4, 4, 4]);
    let index = rng.bits() % super::short_lines(tokens);
    super::short_line(tokens, index)
}

pub fn program(rng: &mut Rng) -> Vec<u8> {
    let lines = match rng.below(10) {
        0 => 13 + rng.below(28),
        1..=3 => 5 + rng.below(8),
        _ => 1 + rng.below(4),
    };
    good_lines(rng, lines, 0)
}

/// Lines that are taken, with labels numbered from `first`.
fn good_lines(rng: &mut Rng, lines: usize, first: usize) -> Vec<u8> {
    let mut out = Vec::new();
    for number in 0..lines {
        match rng.below(20) {
            0 | 1 => write_empty_line(rng, &mut out),
            2 => {
                let tokens = good_setting(rng);
                write_line(rng, &mut out, &tokens);
            }
            3 => {
                let tokens = idle_directive(rng);
                write_line(rng, &mut out, &tokens);
            }
            4 => {
                let tokens = [label_name(rng, first + number), ":".into()];
                write_line(rng, &mut out, &tokens);
            }
            5 | 6 => {
                let mut tokens = vec![label_name(rng, first + number), ":".into()];
                tokens.extend(any_instruction(rng));
                write_line(rng, &mut out, &tokens);
            }
            _ => {
                let tokens = any_instruction(rng);
                write_line(rng, &mut out, &tokens);
            }
        }
    }
    if rng.percent(30) {
        out.pop();
    }
    out
}

pub fn any_instruction(rng: &mut Rng) -> Vec<Token> {
    let row = rng.pick(&ROWS);
    instruction(rng, &row)
}

/// A label that no other number gives.
fn label_name(rng: &mut Rng, number: usize) -> Token {
    let stem = rng.pick(&[
        "l",
        "L",
        "_",
        "loop_",
        "add",
        "r1_",
        "a_very_long_label_name_",
    ]);
    format!("{stem}{number}x").into()
}

pub fn near_miss(rng: &mut Rng) -> Vec<u8> {
    let before = rng.below(4) * rng.below(2);
    let mut out = good_lines(rng, before, 0);
    if !out.is_empty() && out.last() != Some(&b'\n') {
        out.push(b'\n');
    }
    let mut tokens = match rng.percent(80) {
        true => any_instruction(rng),
        false => with_number(rng),
    };
    if rng.percent(15) {
        tokens.splice(0..0, [label_name(rng, before), ":".into()]);
    }
    for _ in 0..1 + rng.below(2) {
        spoil(rng, &mut tokens);
    }
    if rng.percent(90) {
        write_line(rng, &mut out, &tokens);
    } else {
        // No blanks at all: neighbours run together.
        out.extend(tokens.iter().flat_map(|token| token.bytes()));
        out.push(b'\n');
    }
    let after = rng.below(3) * rng.below(2);
    out.extend(good_lines(rng, after, before + 1));
    out
}

/// One change that may make a line wrong.
fn spoil(rng: &mut Rng, tokens: &mut Vec<Token>) {
    if tokens.is_empty() {
        return;
    }
    let (at, other) = (rng.below(tokens.len()), rng.below(tokens.len()));
    match rng.below(12) {
        0 => {
            tokens.remove(at);
        }
        1 => tokens.insert(at, tokens[at].clone()),
        2 => tokens.insert(at, any_token(rng)),
        3 => tokens.push(any_token(rng)),
        4 => tokens.swap(at, other),
        5 => tokens[0] = rng.pick(&NEAR_MNEMONICS).into(),
        // The others keep the count, so that each place is looked at.
        6 => tokens[at] = "a5".into(),
        7 => tokens[at] = rng.pick(&NEAR_REGISTERS).into(),
        8 | 9 => tokens[at] = rng.pick(&[",", ":", "(", ")"]).into(),
        _ => tokens[at] = any_token(rng),
    }
}

pub fn number(rng: &mut Rng) -> Vec<u8> {
    let mut out = Vec::new();
    for _ in 0..1 + rng.below(2) {
        let mut tokens = match rng.below(4) {
            0 => {
                let number = numbers::any_for(rng, SETTING);
                vec![".config".into(), rng.pick(&KEYS).into(), number]
            }
            _ => with_number(rng),
        };
        if rng.percent(10) {
            spoil(rng, &mut tokens);
        }
        write_line(rng, &mut out, &tokens);
    }
    out
}

/// A line with an instruction whose number may not fit.
pub fn numbered_line(rng: &mut Rng) -> Vec<u8> {
    let tokens = with_number(rng);
    let mut out = Vec::new();
    write_line(rng, &mut out, &tokens);
    out
}

/// An instruction with a number that may not fit.
pub fn with_number(rng: &mut Rng) -> Vec<Token> {
    let (row, field) = loop {
        let row: Row = rng.pick(&ROWS);
        if let Some(field) = row.form.field() {
            break (row, field);
        }
    };
    let mut tokens = instruction(rng, &row);
    let place = row
        .form
        .places()
        .iter()
        .position(|place| *place == Place::Number);
    tokens[1 + place.expect("the form has a number")] = numbers::any_for(rng, field);
    tokens
}

pub fn label(rng: &mut Rng) -> Vec<u8> {
    let first = rng.below(NAMES.len() - 7);
    let names = &NAMES[first..first + 2 + rng.below(6)];
    let mut out = Vec::new();
    for _ in 0..1 + rng.below(6) {
        let mut tokens: Vec<Token> = vec![label_head(rng, names), ":".into()];
        match rng.below(16) {
            0 | 1 => tokens.extend(any_instruction(rng)),
            2 => tokens.extend([label_head(rng, names), ":".into()]),
            3 => tokens.extend(good_setting(rng)),
            4 => tokens.push(any_token(rng)),
            5 => tokens.truncate(1),
            6 => tokens = any_instruction(rng),
            7 => tokens = good_setting(rng),
            8..=10 => tokens.push("ecall".into()),
            _ => {}
        }
        write_line(rng, &mut out, &tokens);
    }
    out
}

/// Names for labels.
#[rustfmt::skip]
const NAMES: [&str; 24] = [
    "a", "b", "A", "B", "_", "__", "x1", "x_1", "main", "Main", "add", "ecall", "limb_bits",
    "config", "s2", "r16", "R1", "a6", "zero_", "e", "f0", "g", "h", "k9",
];

/// One of a few names, so that names meet again; now and then no Identifier.
fn label_head(rng: &mut Rng, names: &[&'static str]) -> Token {
    match rng.below(30) {
        0 => rng
            .pick(&["r1", "zero", "a5", "7", "0x1", ".text", "(", "$"])
            .into(),
        _ => rng.pick(names).into(),
    }
}

pub fn setting(rng: &mut Rng) -> Vec<u8> {
    let mut out = Vec::new();
    for _ in 0..1 + rng.below(5) {
        let mut tokens = good_setting(rng);
        match rng.below(24) {
            0 => {
                tokens[0] = rng
                    .pick(&[".Config", ".CONFIG", ".conf", ".configs"])
                    .into()
            }
            1 => {
                let keys = [
                    "limb_bit",
                    "LIMB_BITS",
                    "bits",
                    "r1",
                    "7",
                    "zero",
                    ".x",
                    ",",
                    ":",
                    "(",
                ];
                tokens[1] = rng.pick(&keys).into();
                if rng.percent(30) {
                    tokens[2] = numbers::about_an_end(rng, SETTING);
                }
            }
            2 => tokens[2] = numbers::any(rng),
            3 => tokens[2] = numbers::about_an_end(rng, SETTING),
            4 | 5 => tokens[2] = (rng.below(40) as i64 - 5).to_string().into(),
            6 => tokens[2] = any_token(rng),
            7 => spoil(rng, &mut tokens),
            8 => tokens = any_instruction(rng),
            _ => {}
        }
        write_line(rng, &mut out, &tokens);
    }
    out
}

pub fn directive(rng: &mut Rng) -> Vec<u8> {
    let mut out = Vec::new();
    for _ in 0..1 + rng.below(3) {
        let mut tokens = idle_directive(rng);
        match rng.below(5) {
            0 => spoil(rng, &mut tokens),
            1 => tokens.push(any_token(rng)),
            2 => tokens = any_instruction(rng),
            _ => {}
        }
        write_line(rng, &mut out, &tokens);
    }
    out
}

pub fn long_line(rng: &mut Rng) -> Vec<u8> {
    let mut tokens = match rng.below(4) {
        0 => idle_directive(rng),
        1 => good_setting(rng),
        _ => any_instruction(rng),
    };
    if rng.percent(40) {
        tokens.splice(0..0, ["long".into(), ":".into()]);
    }
    let length = 8 + rng.below(12);
    while tokens.len() < length {
        let token = match rng.percent(92) {
            true => rng
                .pick(&[",", ":", "(", ")", "r1", "x", "7", "0x1", ".d", "a5"])
                .into(),
            false => any_token(rng),
        };
        tokens.push(token);
    }
    let mut out = Vec::new();
    write_line(rng, &mut out, &tokens);
    if rng.percent(30) {
        out.extend_from_slice(b"ecall");
    }
    out
}

pub fn stray_byte(rng: &mut Rng) -> Vec<u8> {
    let mut out = Vec::new();
    let tokens = match rng.below(6) {
        0 => good_setting(rng),
        1 => vec!["x".into(), ":".into(), "ecall".into()],
        _ => any_instruction(rng),
    };
    write_tokens(rng, &mut out, &tokens);
    let byte = match rng.below(3) {
        0 => rng.below(128) as u8,
        1 => 9 + rng.below(6) as u8,
        _ => rng.pick(b"#:,()$-+.;_0\x00\x1c\x1f\x7f"),
    };
    let at = rng.below(out.len() + 1);
    out.insert(at, byte);
    out
}

pub fn damaged(rng: &mut Rng) -> Vec<u8> {
    let lines = 1 + rng.below(5);
    let mut out = good_lines(rng, lines, 0);
    for _ in 0..1 + rng.below(3) {
        if out.is_empty() {
            break;
        }
        let (at, other) = (rng.below(out.len()), rng.below(out.len()));
        match rng.below(5) {
            0 => {
                out.remove(at);
            }
            1 => out.insert(at, rng.below(128) as u8),
            2 => out.swap(at, other),
            _ => out[at] ^= 1 << rng.below(7),
        }
    }
    out
}

/// An image with a few bits or bytes changed.
pub fn damaged_image(rng: &mut Rng, image: &[u8]) -> Vec<u8> {
    let mut image = image.to_vec();
    // Mostly in the words: a changed header is soon refused.
    let from = if rng.percent(75) && image.len() > 32 {
        32
    } else {
        8
    };
    for _ in 0..1 + rng.below(2) {
        let at = from + rng.below(image.len() - from);
        match rng.below(10) {
            0 => image[at] = 0xFF,
            1 => image[at] = rng.below(256) as u8,
            2 => image.push(0),
            _ => image[at] ^= 1 << rng.below(8),
        }
    }
    image
}
