//! Numbers that do not fit (document 02, request c), laid over the reference, which takes each modulo
//! its field: it is asked for the lines up to the first such number, with a good end in its place.

use zkir_assembler::lexer::Token;

use crate::answer::{ask, refusal, Answer};
use crate::isa::{Field, Place, KEYS, SETTING};
use crate::lines::{instruction, tokens, Placed};
use crate::sources::operands;

/// "35 number out of its range".
const NUMBER: u32 = 35;

/// The answer for a text without targets, whatever the added limits say: the reference's, or 35.
pub(crate) fn ask_in_range(text: &str) -> Answer {
    let Some(found) = OutOfRange::first(text) else {
        return ask(text);
    };
    // "35 ... just after 8 at the same operand": what stands above its line or to its left on the
    // line decides before it, and all of that the reference is asked for. What follows does not.
    match ask(&found.mended(text)) {
        Answer::Accepted { labels, .. } => refusal(NUMBER, found.line, found.line, labels),
        refused => refused,
    }
}

/// A number that does not fit, where one is looked at.
struct OutOfRange {
    /// The line on which it stands, from 1.
    line: usize,
    /// Where the tokens begin, counted from the text's first byte, that are looked at with it or later.
    start: usize,
    /// Tokens that the reference takes in their place.
    good: String,
}

impl OutOfRange {
    /// The first of a text.
    fn first(text: &str) -> Option<OutOfRange> {
        let mut begin = 0;
        for (line, of_line) in (1..).zip(text.split_inclusive('\n')) {
            if let Some((start, good)) = out_of_range_in(of_line) {
                return Some(OutOfRange {
                    line,
                    start: begin + start,
                    good,
                });
            }
            begin += of_line.len();
        }
        None
    }

    /// The text up to its line, with good tokens from the number on, or from the key of a setting. No
    /// token to their left may run together with them.
    fn mended(&self, text: &str) -> String {
        format!("{} {}", &text[..self.start], self.good)
    }
}

/// Where on a line the tokens begin that are looked at with a number that does not fit, or later; and
/// good ones for their place.
fn out_of_range_in(line: &str) -> Option<(usize, String)> {
    // Most lines are seen to have no number before they are read.
    if !line.contains(|byte: char| byte.is_ascii_digit()) {
        return None;
    }
    let tokens = tokens(line)?;
    setting_out_of_range(&tokens).or_else(|| operand_out_of_range(&tokens))
}

/// A setting must be in its range, "seen before its key is looked up". A key that is no Identifier
/// comes before both, and the reference knows it.
fn setting_out_of_range(tokens: &[Placed]) -> Option<(usize, String)> {
    let [(Token::Directive(name), _), (Token::Identifier(_), key), (number, _)] = tokens else {
        return None;
    };
    let is_refused = name == "config" && !fits(number, SETTING);
    is_refused.then(|| (key.start, format!("{} 20", KEYS[0])))
}

fn operand_out_of_range(tokens: &[Placed]) -> Option<(usize, String)> {
    let (row, given) = instruction(tokens)?;
    let field = row.form.field()?;
    let mut places = row.form.places().iter();
    let at = places.position(|place| *place == Place::Number)?;
    let (number, span) = &given[at];
    let good = operands(row.form, ["r0"; 3], "0");
    (!fits(number, field)).then(|| (span.start, good[at..].join(" ")))
}

/// Whether a token is one of a field's numbers. What is no number is refused by 8.
fn fits(token: &Token, field: Field) -> bool {
    match token {
        Token::Number(value) => field.decimals().contains(value),
        Token::Hex(value) | Token::Binary(value) => field.patterns().contains(value),
        _ => true,
    }
}
