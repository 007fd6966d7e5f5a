//! What the reference reads of a line: its tokens, and the instruction that they may be.

use std::ops::Range;

use logos::Logos;
use zkir_assembler::lexer::Token;

use crate::isa::{Row, ROWS};

/// A token, and where it stands, counted from the first byte of what it was read from.
pub(crate) type Placed = (Token, Range<usize>);

/// What is read of a line. As `first_pass` does: it is trimmed, cut at `#` and trimmed again.
pub(crate) fn content(line: &str) -> &str {
    let trimmed = line.trim();
    trimmed[..trimmed.find('#').unwrap_or(trimmed.len())].trim()
}

/// The tokens of a line, unless one is bad.
pub(crate) fn tokens(line: &str) -> Option<Vec<Placed>> {
    let indent = line.len() - line.trim_start().len();
    let mut lexer = Token::lexer(content(line));
    let mut tokens = Vec::new();
    while let Some(token) = lexer.next() {
        let Range { start, end } = lexer.span();
        tokens.push((token.ok()?, indent + start..indent + end));
    }
    Some(tokens)
}

/// The row and the operand tokens of a line's instruction, after a label or not, if its mnemonic is
/// known and it has as many operand tokens as its form.
pub(crate) fn instruction(tokens: &[Placed]) -> Option<(Row, &[Placed])> {
    let instruction = match tokens {
        [(Token::Identifier(_), _), (Token::Colon, _), instruction @ ..] => instruction,
        instruction => instruction,
    };
    let [(Token::Identifier(mnemonic), _), operands @ ..] = instruction else {
        return None;
    };
    let mnemonic = mnemonic.to_lowercase();
    let row = ROWS.into_iter().find(|row| row.mnemonic == mnemonic)?;
    (operands.len() == row.form.places().len()).then_some((row, operands))
}
