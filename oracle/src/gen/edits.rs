//! How a line that holds an instruction is drawn anew.

use super::kinds::{any_instruction, with_number};
use super::rng::Rng;
use super::spelling::{write_line, Token};
use super::targets::{jump, odd_target};

/// A line that may stand in place of one with this label, if any, and an instruction of these tokens.
/// It may name any of its source's labels.
pub fn redrawn_line(
    rng: &mut Rng,
    label: Option<&str>,
    instruction: &[&str],
    labels: &[&str],
) -> Vec<u8> {
    let mut tokens: Vec<Token> = Vec::new();
    if let Some(name) = label {
        tokens.extend([owned(name), ":".into()]);
    }
    tokens.extend(match rng.below(20) {
        // Blanks and comments alone are others.
        0 | 1 => instruction.iter().map(|token| owned(token)).collect(),
        // Most of these are refused, and some of the next.
        2 => jump(rng, odd_target),
        3 => with_number(rng),
        4..=11 if !labels.is_empty() => jump(rng, |rng| owned(rng.pick(labels))),
        _ => any_instruction(rng),
    });
    let mut out = Vec::new();
    write_line(rng, &mut out, &tokens);
    out
}

fn owned(token: &str) -> Token {
    token.to_string().into()
}
