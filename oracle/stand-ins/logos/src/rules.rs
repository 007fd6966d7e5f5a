//! The rules of document 01, "Lines and tokens". Each sentence stands, quoted, above the code
//! that follows it.

/// A token of each class, with what it carries.
#[derive(Clone, Copy, Debug, PartialEq, Eq)]
pub enum Match<'s> {
    Register(&'s str),
    Identifier(&'s str),
    Number(i64),
    Hex(u64),
    Binary(u64),
    Directive(&'s str),
    Comma,
    Colon,
    LParen,
    RParen,
}

#[derive(Clone, Copy)]
pub enum Class {
    Register,
    Identifier,
    Number,
    Hex,
    Binary,
    Directive,
    Comma,
    Colon,
    LParen,
    RParen,
}

/// A class with the length of the longest prefix that belongs to it, 0 when there is none.
type Rule = (Class, fn(&[u8]) -> usize);

/// In this order an earlier rule wins at equal length: "Register beats Identifier at equal
/// length". No other two classes can match the same text.
const RULES: [Rule; 10] = [
    (Class::Register, register),
    (Class::Identifier, identifier),
    (Class::Number, number),
    (Class::Hex, hex),
    (Class::Binary, binary),
    (Class::Directive, directive),
    (Class::Comma, |text| mark(text, b',')),
    (Class::Colon, |text| mark(text, b':')),
    (Class::LParen, |text| mark(text, b'(')),
    (Class::RParen, |text| mark(text, b')')),
];

/// "Inside, only space and tab are skipped."
pub fn blanks(text: &[u8]) -> usize {
    run(text, |byte| matches!(byte, b' ' | b'\t'))
}

/// "The longest match wins." "Anything else is a bad token": it has no class, and takes one byte.
pub fn longest(text: &[u8]) -> (usize, Option<Class>) {
    let mut best = (0, None);
    for (class, prefix) in RULES {
        let length = prefix(text);
        if length > best.0 {
            best = (length, Some(class));
        }
    }
    match best {
        (0, _) => (1, None),
        found => found,
    }
}

/// What a token carries. "A value too large is a bad token; leading zeros don't count": the limit
/// is looked at after the longest match, and no shorter match is tried.
pub fn value(class: Class, text: &str) -> Option<Match<'_>> {
    Some(match class {
        Class::Register => Match::Register(text),
        Class::Identifier => Match::Identifier(text),
        // "within i64"
        Class::Number => Match::Number(text.parse().ok()?),
        // "both below 2^64"
        Class::Hex => Match::Hex(u64::from_str_radix(&text[2..], 16).ok()?),
        Class::Binary => Match::Binary(u64::from_str_radix(&text[2..], 2).ok()?),
        Class::Directive => Match::Directive(&text[1..]),
        Class::Comma => Match::Comma,
        Class::Colon => Match::Colon,
        Class::LParen => Match::LParen,
        Class::RParen => Match::RParen,
    })
}

/// "Identifier: letter or `_`, then letters, digits, `_`."
fn identifier(text: &[u8]) -> usize {
    match text.first() {
        Some(first) if first.is_ascii_alphabetic() || *first == b'_' => {
            run(text, |byte| byte.is_ascii_alphanumeric() || byte == b'_')
        }
        _ => 0,
    }
}

/// "Register: `r0`..`r15`, `zero ra sp gp tp fp s0 s1 t0 t1 t2`, `a0`..`a5`, lower case."
fn register(text: &[u8]) -> usize {
    match text {
        [b'r', b'1', b'0'..=b'5', ..] => 3,
        [b'r', b'0'..=b'9', ..] => 2,
        [b'z', b'e', b'r', b'o', ..] => 4,
        [b'r', b'a', ..] | [b's' | b'g' | b't' | b'f', b'p', ..] => 2,
        [b's', b'0' | b'1', ..] | [b't', b'0'..=b'2', ..] => 2,
        [b'a', b'0'..=b'5', ..] => 2,
        _ => 0,
    }
}

/// "Number: optional `-`, digits".
fn number(text: &[u8]) -> usize {
    let sign = usize::from(text.first() == Some(&b'-'));
    after(sign, run(&text[sign..], |byte| byte.is_ascii_digit()))
}

/// "Hex: `0x` and hex digits".
fn hex(text: &[u8]) -> usize {
    match text {
        [b'0', b'x', digits @ ..] => after(2, run(digits, |byte| byte.is_ascii_hexdigit())),
        _ => 0,
    }
}

/// "Binary: `0b` and 0/1".
fn binary(text: &[u8]) -> usize {
    match text {
        [b'0', b'b', digits @ ..] => after(2, run(digits, |byte| matches!(byte, b'0' | b'1'))),
        _ => 0,
    }
}

/// "Directive: `.` and an Identifier's spelling, register names included (`.r1`)."
fn directive(text: &[u8]) -> usize {
    match text {
        [b'.', name @ ..] => after(1, identifier(name)),
        _ => 0,
    }
}

/// "Also `, : ( )`."
fn mark(text: &[u8], mark: u8) -> usize {
    usize::from(text.first() == Some(&mark))
}

/// A prefix of `start` bytes and then `rest` more, of which there must be at least one.
fn after(start: usize, rest: usize) -> usize {
    match rest {
        0 => 0,
        rest => start + rest,
    }
}

/// How many bytes from the start belong to a set.
fn run(text: &[u8], belongs: impl Fn(u8) -> bool) -> usize {
    text.iter().take_while(|byte| belongs(**byte)).count()
}
