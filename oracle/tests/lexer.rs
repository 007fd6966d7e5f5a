//! The hand-written lexer, through the reference's own `Token`.

use logos::Logos;
use zkir_assembler::lexer::Token::{self, *};

/// The tokens of a line, up to a bad one.
fn tokens(line: &str) -> Vec<Result<Token, ()>> {
    Token::lexer(line).collect()
}

fn identifier(name: &str) -> Result<Token, ()> {
    Ok(Identifier(name.to_string()))
}

fn register(name: &str) -> Result<Token, ()> {
    Ok(Register(name.to_string()))
}

fn directive(name: &str) -> Result<Token, ()> {
    Ok(Directive(name.to_string()))
}

#[test]
fn a_match_ends_where_its_class_ends() {
    assert_eq!(tokens("0xg"), [Ok(Number(0)), identifier("xg")]);
    assert_eq!(tokens("0x"), [Ok(Number(0)), identifier("x")]);
    assert_eq!(tokens("0X1"), [Ok(Number(0)), identifier("X1")]);
    assert_eq!(tokens("0b12"), [Ok(Binary(1)), Ok(Number(2))]);
    assert_eq!(tokens("0b2"), [Ok(Number(0)), identifier("b2")]);
    assert_eq!(tokens("-0x5"), [Ok(Number(0)), identifier("x5")]);
    assert_eq!(tokens("1-2"), [Ok(Number(1)), Ok(Number(-2))]);
    assert_eq!(tokens("a:b"), [identifier("a"), Ok(Colon), identifier("b")]);
    assert_eq!(tokens("1r1"), [Ok(Number(1)), register("r1")]);
    assert_eq!(
        tokens("8(sp),"),
        [
            Ok(Number(8)),
            Ok(LParen),
            register("sp"),
            Ok(RParen),
            Ok(Comma)
        ]
    );
}

#[test]
fn register_names_are_lower_case_and_whole() {
    for name in [
        "r0", "r9", "r10", "r15", "zero", "ra", "sp", "gp", "tp", "fp", "s1", "t2", "a5",
    ] {
        assert_eq!(tokens(name), [register(name)]);
    }
    for name in [
        "r16", "r01", "r", "R1", "s2", "t3", "a6", "Zero", "zeros", "r1_", "_r1", "ra0",
    ] {
        assert_eq!(tokens(name), [identifier(name)]);
    }
    assert_eq!(tokens(".r1"), [directive("r1")]);
    assert_eq!(tokens(".config"), [directive("config")]);
}

#[test]
fn values_have_limits() {
    assert_eq!(tokens("-9223372036854775808"), [Ok(Number(i64::MIN))]);
    assert_eq!(tokens("9223372036854775807"), [Ok(Number(i64::MAX))]);
    assert_eq!(tokens("9223372036854775808"), [Err(())]);
    assert_eq!(tokens("-9223372036854775809"), [Err(())]);
    assert_eq!(tokens("0xFFFFffffFFFFffff"), [Ok(Hex(u64::MAX))]);
    assert_eq!(tokens("0x10000000000000000"), [Err(())]);
    assert_eq!(tokens("0x00000000000000000010"), [Ok(Hex(16))]);
    assert_eq!(
        tokens(&format!("0b{}", "1".repeat(64))),
        [Ok(Binary(u64::MAX))]
    );
    assert_eq!(tokens(&format!("0b{}", "1".repeat(65))), [Err(())]);
    assert_eq!(tokens(&format!("-{}7", "0".repeat(90))), [Ok(Number(-7))]);
}

#[test]
fn only_space_and_tab_are_skipped() {
    assert_eq!(tokens(" \t1\t "), [Ok(Number(1))]);
    assert_eq!(tokens(""), []);
    for bad in ["\x0b", "\x0c", "\r", "\0", "\x7f", "$", "-", "+", ".", "#"] {
        assert_eq!(tokens(bad), [Err(())]);
    }
}

#[test]
fn a_span_says_where_the_last_token_stands() {
    let mut lexer = Token::lexer(" ab  $");
    lexer.next();
    assert_eq!(lexer.span(), 1..3);
    assert_eq!(lexer.next(), Some(Err(())));
    assert_eq!(lexer.span(), 5..6);
}
