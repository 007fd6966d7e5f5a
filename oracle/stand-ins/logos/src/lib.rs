//! Stand-in for `logos`: the trait and the lexer that the reference uses, over a hand-written
//! matcher of document 01's rules (`rules.rs`).

mod rules;

use std::marker::PhantomData;
use std::ops::Range;

pub use logos_derive::Logos;
pub use rules::Match;

/// A token enum. The derive gives `from_match`.
pub trait Logos: Sized {
    fn from_match(found: Match<'_>) -> Self;

    fn lexer(source: &str) -> Lexer<'_, Self> {
        Lexer {
            source,
            span: 0..0,
            token: PhantomData,
        }
    }
}

/// Reads a text token by token; a bad token is an `Err`.
pub struct Lexer<'s, T> {
    source: &'s str,
    span: Range<usize>,
    token: PhantomData<T>,
}

impl<T> Lexer<'_, T> {
    /// Where the token read last stands.
    pub fn span(&self) -> Range<usize> {
        self.span.clone()
    }
}

impl<T: Logos> Iterator for Lexer<'_, T> {
    type Item = Result<T, ()>;

    fn next(&mut self) -> Option<Self::Item> {
        let bytes = self.source.as_bytes();
        let start = self.span.end + rules::blanks(&bytes[self.span.end..]);
        if start == bytes.len() {
            self.span = start..start;
            return None;
        }
        let (length, class) = rules::longest(&bytes[start..]);
        self.span = start..start + length;
        Some(
            class
                .and_then(|class| rules::value(class, &self.source[self.span()]))
                .map(T::from_match)
                .ok_or(()),
        )
    }
}
