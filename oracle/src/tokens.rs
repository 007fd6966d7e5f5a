//! The fixed list of lines, with the tokens that the reference's lexer reads of them.

use std::collections::HashSet;

use zkir_assembler::lexer::Token;
use zkir_assembler::parser::parse_register;

use crate::falsified;
use crate::gen::{self, Kind, Rng, ALPHABET, GOOD_NUMBERS, ODD_NUMBERS};
use crate::isa::REGISTERS;
use crate::lines::{self, Placed};
use crate::list::escape;

/// The seeds of the made sources whose lines are taken.
const SEEDS: std::ops::Range<u64> = 4000..4016;

/// "A line keeps at most its first nine tokens".
const KEPT: usize = 9;

/// The bytes that the ends of a line lose, 10 aside.
const MARGINS: [u8; 5] = *b" \t\x0b\x0c\r";

/// The text of `crates/test_tokens/stdin`.
pub fn token_list() -> String {
    let mut out = format!(
        "# Lines and the tokens that the Rust reference's lexer reads of them, for the program\n\
         # tokens. The format is described in oracle/README.md. Made by `make-list`: chosen lines,\n\
         # then the lines of `gen` with seeds {} to {}, then falsified records.\n",
        SEEDS.start,
        SEEDS.end - 1
    );
    for line in lines() {
        let line = String::from_utf8(line).expect("the lines are ASCII");
        out.push_str("\ns ");
        escape(&mut out, line.as_bytes());
        out.push('\n');
        out += &answer(&line);
    }
    out += &falsified::TOKENS.records(&out);
    out
}

/// The lines that answer a line of text: `b`, or `n` and a `k` for each token kept.
fn answer(line: &str) -> String {
    let Some(tokens) = tokens(line) else {
        return "b\n".to_string();
    };
    let kept = tokens.iter().take(KEPT).map(|token| format!("k {token}\n"));
    kept.fold(format!("n {}\n", tokens.len()), |text, token| text + &token)
}

/// The tokens of a line as they are written to the list, unless one is bad.
fn tokens(line: &str) -> Option<Vec<String>> {
    let written = |(token, span): Placed| {
        let (kind, value) = kind_and_value(&token, &line[span.clone()]);
        format!("{kind} {} {} {value}", span.start, span.len())
    };
    Some(lines::tokens(line)?.into_iter().map(written).collect())
}

/// A token's letter and number. A name that names no register has the number 16.
fn kind_and_value(token: &Token, text: &str) -> (char, u64) {
    match token {
        Token::Identifier(_) => ('i', 0),
        Token::Register(name) => ('r', parse_register(name).map_or(16, |found| found as u64)),
        Token::Number(value) if text.starts_with('-') => ('m', value.unsigned_abs()),
        Token::Number(value) => ('n', value.unsigned_abs()),
        Token::Hex(value) => ('h', *value),
        Token::Binary(value) => ('b', *value),
        Token::Directive(_) => ('d', 0),
        Token::Comma => (',', 0),
        Token::Colon => (':', 0),
        Token::LParen => ('(', 0),
        Token::RParen => (')', 0),
        Token::Newline => unreachable!("a line holds no byte 10"),
    }
}

/// All lines of the list, each once.
fn lines() -> Vec<Vec<u8>> {
    let mut all: Vec<Vec<u8>> = CHOSEN.iter().map(|line| line.to_vec()).collect();
    all.extend(every_byte());
    all.extend(every_register_name());
    all.extend(numbers().into_iter().map(String::into_bytes));
    all.extend(margins_and_comments());
    all.extend(long_lines().into_iter().map(String::into_bytes));
    all.extend(short_lines());
    all.extend(made_lines());
    let mut seen = HashSet::new();
    all.retain(|line| seen.insert(line.clone()));
    all
}

/// Each byte but 10 alone, between two tokens with and without blanks, and behind the beginnings
/// that ask what class it is in.
fn every_byte() -> Vec<Vec<u8>> {
    const AROUND: [(&[u8], &[u8]); 7] = [
        (b"", b""),
        (b"r1", b"2"),
        (b"x ", b" 7"),
        (b".", b""),
        (b"-", b"9"),
        (b"0x", b"1"),
        (b"0b", b"0"),
    ];
    let bytes = (0..128u8).filter(|byte| *byte != b'\n');
    bytes
        .flat_map(|byte| AROUND.map(|(before, behind)| [before, &[byte], behind].concat()))
        .collect()
}

/// Each register name and its near misses.
fn every_register_name() -> Vec<Vec<u8>> {
    let mut lines = Vec::new();
    for name in REGISTERS.into_iter().chain(["a5"]) {
        lines.push(name.to_string());
        lines.push(format!("{name}:{name}"));
        lines.push(format!("\t{name}0, _{name}, .{name}"));
        lines.push(format!("8({name})"));
        lines.push(name.to_uppercase());
        lines.push(name[..name.len() - 1].to_string());
        lines.push(format!("{name}_"));
    }
    for letter in ["r", "s", "t", "a", "x", "R"] {
        let numbers = ["2", "3", "5", "6", "9", "00", "01", "15", "16", "20", "100"];
        lines.extend(numbers.map(|number| format!("{letter}{number}")));
    }
    let others = [
        "Zero", "zeRo", "zeroo", "xzero", "Ra", "rA", "pc", "ps", "r1r2", "r1.5", "r-1",
    ];
    lines.extend(others.map(str::to_string));
    lines.into_iter().map(String::into_bytes).collect()
}

/// Numbers in each base at their limits, with leading zeros, and forms that are nearly numbers.
fn numbers() -> Vec<String> {
    let mut lines: Vec<String> = GOOD_NUMBERS.map(str::to_string).into();
    lines.extend(ODD_NUMBERS.map(str::to_string));
    for near in [1u128 << 63, 1 << 64, 10 * (u128::from(u64::MAX) / 10)] {
        for value in near - 2..=near + 2 {
            lines.push(format!("{value}"));
            lines.push(format!("-{value}"));
            lines.push(format!("{value:030}, -{value:050}"));
            lines.push(format!("0x{value:x}"));
            lines.push(format!("0x{value:X}x, 0x{value:040x}"));
            lines.push(format!("0b{value:b}"));
            lines.push(format!("(0b{value:0100b})"));
        }
    }
    // One more digit than fits, whatever the digits, and many zeros that count for nothing.
    for digits in 15..=21 {
        lines.push(format!("-1{}", "0".repeat(digits)));
        lines.push("9".repeat(digits));
        lines.push(format!("0x{}", "f".repeat(digits)));
        lines.push(format!("0x8{}", "0".repeat(digits)));
        lines.push(format!("0b1{}", "0".repeat(digits + 45)));
    }
    for zeros in [1, 17, 64, 300] {
        let zeros = "0".repeat(zeros);
        for number in ["", "-", "0x", "0b", "7-", "."] {
            lines.push(format!("{number}{zeros}"));
            lines.push(format!("{number}{zeros}1"));
        }
    }
    lines
}

/// Each of the trimmed bytes, and each two of them, at both ends and inside a line; and a comment
/// that begins at each byte of a line.
fn margins_and_comments() -> Vec<Vec<u8>> {
    let mut lines: Vec<Vec<u8>> = Vec::new();
    for one in MARGINS {
        lines.push([&[one, one, one, b'x'][..], &[one; 3]].concat());
        lines.push([b"x", &[one][..], b"#", &[one]].concat());
        lines.push([&[one][..], b"#x"].concat());
        for two in MARGINS {
            lines.push(vec![one, two]);
            lines.push([&[one, two][..], b"a:", &[two, one]].concat());
            lines.push([b"a", &[one, two][..], b"1"].concat());
            lines.push([b"a 1", &[one, two][..], b"# $"].concat());
            lines.push([&[one][..], b"$", &[two]].concat());
        }
    }
    let line = b"l: lw r1, -8(sp) .d 0x1f";
    for at in 0..=line.len() {
        lines.push([&line[..at], b"#", &line[at..]].concat());
    }
    lines
}

/// Lines about as long as what a line keeps, and longer ones, with a bad token at each place.
fn long_lines() -> Vec<String> {
    const TOKENS: [&str; 13] = [
        "add", ".x", "r1", "a5", "7", "-7", "0xA", "0b10", ",", ":", "(", ")", "sp",
    ];
    let mut lines = Vec::new();
    for count in 1..=TOKENS.len() {
        lines.push(TOKENS[..count].join(" "));
        lines.push(TOKENS[TOKENS.len() - count..].join("\t"));
        lines.push(",".repeat(count + 3));
        lines.push("x ".repeat(count + 3) + "# y");
        for bad in ["$", "9223372036854775808", "0x10000000000000000"] {
            let mut tokens = TOKENS;
            tokens[count - 1] = bad;
            lines.push(tokens.join(" "));
        }
    }
    lines.push("1 ".repeat(150));
    lines.push("1 ".repeat(150) + "$");
    lines.push("x".repeat(300) + ":");
    lines
}

/// The lines of one token of the small alphabet, half of those of two that touch, and some of
/// three with various blanks between them.
fn short_lines() -> Vec<Vec<u8>> {
    let mut lines: Vec<String> = ALPHABET.map(str::to_string).into();
    for (at, left) in ALPHABET.into_iter().enumerate() {
        let rights = ALPHABET.into_iter().skip(at % 2).step_by(2);
        lines.extend(rights.map(|right| format!("{left}{right}")));
    }
    let mut rng = Rng::new(SEEDS.start);
    for _ in 0..200 {
        let mut line = rng.pick(&ALPHABET).to_string();
        for _ in 0..2 {
            line += rng.pick(&["", " ", "\t", " \t "]);
            line += rng.pick(&ALPHABET);
        }
        lines.push(line);
    }
    lines.into_iter().map(String::into_bytes).collect()
}

/// The lines of made sources.
fn made_lines() -> Vec<Vec<u8>> {
    const MADE: [Kind; 6] = [
        Kind::Program,
        Kind::NearMiss,
        Kind::Number,
        Kind::LongLine,
        Kind::StrayByte,
        Kind::Damaged,
    ];
    let mut lines = Vec::new();
    for kind in MADE {
        for seed in SEEDS {
            let source = gen::source(kind, seed);
            lines.extend(source.split(|byte| *byte == b'\n').map(<[u8]>::to_vec));
        }
    }
    lines
}

/// Document 01's examples, and lines where one token ends and the next begins.
const CHOSEN: &[&[u8]] = &[
    b"",
    b"r16",
    b"0xg",
    b"-9223372036854775808",
    b"9223372036854775808",
    b"add r1, r2, r3",
    b"ADD R1, r2, r3",
    b"add a5, r1, r1",
    b"slli r1, r2, 300",
    b".config limb_bits 276",
    b"foo: bar:",
    b"start: ADDI a0, zero, -1 # one",
    b"sw a0, 8(sp)",
    b"0b12",
    b"-0x5",
    b"-0b1",
    b".r1",
    b".zero.ra",
    b"a:b",
    b"a:b:c:",
    b"1-2",
    b"1--2",
    b"1 - 2",
    b"1- 2",
    b"-1-1-1",
    b"1r1",
    b"1x",
    b"00x1",
    b"00b1",
    b"0x0x1",
    b"0b0b1",
    b"0x1.x",
    b"0b1.x",
    b"0xx",
    b"0bb",
    b"0x-1",
    b"0b-1",
    b"0x,0b,0",
    b"x.y",
    b".x.y",
    b".x:.y",
    b"..x",
    b".1x",
    b"._",
    b"._1.a5",
    b"_",
    b"__",
    b"_1_",
    b"a_b c_1 _D",
    b"((r1))",
    b"()",
    b",,::(())",
    b"lw r1,8(r2)",
    b"lw r1 , 8 ( r2 )",
    b"-",
    b"--",
    b"- 1",
    b"-a",
    b"x#y#z",
    b"#",
    b"##",
    b" # # ",
    b"x # 9223372036854775808",
    b"9223372036854775808 # x",
    b"\"a\"",
    b"a\\b",
    b"\\\\",
    b"aA zZ AZ az",
    b"@ `",
    b"[ ]",
    b"a[",
    b"A@",
    b"a{",
    b"z`",
    b"0/",
    b"9:",
    b"/9",
    b"0xf 0xF 0xg 0xG",
    b"0x@ 0x`",
    b"0b0 0b1 0b2",
    b"0b/",
];
