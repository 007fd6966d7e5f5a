//! How the sources are made in which instructions name labels.

use super::kinds::{any_instruction, with_number};
use super::rng::Rng;
use super::spelling::{any_token, instruction, write_line, Token, NEAR_REGISTERS};
use crate::isa::{Form, Place, Row, REGISTERS, ROWS};

/// Names of labels. Neighbours differ in case alone, or are each the front of the other.
#[rustfmt::skip]
const NAMES: [&str; 28] = [
    "a", "A", "ab", "b", "B", "_", "__", "_1", "loop", "Loop", "LOOP", "loop_", "end", "End", "x",
    "x1", "add", "jal", "JAL", "beq", "limb_bits", "config", "r16", "R1", "s2", "a6", "zero_",
    "ecall",
];

/// One source in so many has a distance about the most that a branch has; they take long.
const SELDOM: usize = 2000;

/// About as many words as a branch can go over.
const FAR: std::ops::Range<usize> = 16_372..16_386;

pub fn target(rng: &mut Rng) -> Vec<u8> {
    let first = rng.below(NAMES.len() - 5);
    let names = &NAMES[first..first + 2 + rng.below(4)];
    let odd = rng.percent(40);
    let lines = 1 + match rng.percent(10) {
        true => rng.below(40),
        false => rng.below(8),
    };
    let far = (rng.below(SELDOM) == 0).then(|| rng.below(lines));
    let mut left = names.to_vec();
    let mut out = Vec::new();
    for line in 0..lines {
        if far == Some(line) {
            let words = FAR.start + rng.below(FAR.len());
            out.extend(b"ecall\n".repeat(words));
        }
        let mut tokens = label(rng, &mut left, lines - line);
        tokens.extend(content(rng, names, odd));
        write_line(rng, &mut out, &tokens);
    }
    // Most labels that have not been entered yet.
    for name in left {
        if !odd || rng.percent(75) {
            write_line(rng, &mut out, &[name.into(), ":".into()]);
        }
    }
    if rng.percent(30) {
        out.pop();
    }
    out
}

/// One of the labels left, with its colon, or none; so many lines are still to come.
fn label(rng: &mut Rng, left: &mut Vec<&'static str>, lines: usize) -> Vec<Token> {
    if left.is_empty() || rng.below(lines + 2) > left.len() {
        return Vec::new();
    }
    let name = match rng.percent(98) {
        true => left.swap_remove(rng.below(left.len())),
        // It may be entered again.
        false => rng.pick(left),
    };
    vec![name.into(), ":".into()]
}

/// What stands on a line behind its label, if anything.
fn content(rng: &mut Rng, names: &[&'static str], odd: bool) -> Vec<Token> {
    match rng.below(20) {
        0 => Vec::new(),
        1..=3 => vec!["ecall".into()],
        4 | 5 => any_instruction(rng),
        6 if odd => misplaced(rng, names),
        7 if odd => jump(rng, |rng| odd_target(rng)),
        8 if odd => with_number(rng),
        _ => jump(rng, |rng| rng.pick(names).into()),
    }
}

/// A jump or branch with this token as its last.
pub fn jump(rng: &mut Rng, target: impl FnOnce(&mut Rng) -> Token) -> Vec<Token> {
    let row = loop {
        // One in four is a jal, of which there is one row.
        let row: Row = rng.pick(&ROWS);
        if row.form == Form::Jump || row.form == Form::Branch && rng.percent(50) {
            break row;
        }
    };
    let mut tokens = instruction(rng, &row);
    *tokens.last_mut().expect("it has operands") = target(rng);
    tokens
}

/// A name that no label of the source may have, a register's name, or another token.
pub fn odd_target(rng: &mut Rng) -> Token {
    match rng.below(6) {
        0 => rng.pick(&REGISTERS).into(),
        1 => rng.pick(&NEAR_REGISTERS).into(),
        2 => "a5".into(),
        3 => any_token(rng),
        _ => rng.pick(&NAMES).into(),
    }
}

/// An instruction with a name in the place of an operand: mostly where no target may stand.
fn misplaced(rng: &mut Rng, names: &[&'static str]) -> Vec<Token> {
    let row = loop {
        let row: Row = rng.pick(&ROWS);
        if row.form != Form::Bare {
            break row;
        }
    };
    let places = row.form.places().iter().enumerate();
    let operands: Vec<usize> = places
        .filter(|(_, place)| !matches!(place, Place::Mark(_)))
        .map(|(at, _)| at)
        .collect();
    let mut tokens = instruction(rng, &row);
    tokens[1 + rng.pick(&operands)] = rng.pick(names).into();
    tokens
}
