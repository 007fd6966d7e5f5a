//! The fixed list of instructions and words: what the reference answers for lines of one
//! instruction, and what `model` reads of words.

use std::collections::HashSet;

use zkir_assembler::lexer::Token;
use zkir_assembler::parser::parse_register;

use crate::answer::{answer, Answer};
use crate::falsified;
use crate::gen::Rng;
use crate::images::field_words;
use crate::isa::{Field, Form, Place, Row, REGISTERS, ROWS};
use crate::lines::{content, tokens};
use crate::list::escape;
use crate::model::{line_of, unused_bits};
use crate::sources::{plain, sources};
use crate::targets::Targeted;

/// The seed of the random words, and how many there are.
const SEED: u64 = 5000;
const RANDOM_WORDS: usize = 300;

/// Lines without an instruction, and where its mnemonic would stand. Assembling reads none of them
/// as an instruction, so the reference has no answer: 14, by hand.
const WITHOUT: [(&str, usize); 3] = [("", 0), (" \t# ecall", 0), ("l:", 2)];

/// The lines with an instruction of document 01's program.
const PROGRAM: [&str; 4] = [
    "start: ADDI a0, zero, -1 # one",
    "sw a0, 8(sp)",
    "jal ra, 0x1FFFFE",
    "ecall",
];

/// The text of `crates/test_words/stdin`.
pub fn word_list() -> String {
    let mut out = format!(
        "# Lines of one instruction, what the Rust reference answers, and words and the texts that\n\
         # `model` reads of them, for the program words. The format is described in\n\
         # oracle/README.md. Made by `make-list`: the sources of crates/test_vectors that are one line\n\
         # and read as an instruction, chosen lines, chosen words, {RANDOM_WORDS} words with seed {SEED};\n\
         # and falsified records.\n"
    );
    for (line, place) in WITHOUT {
        write_line(&mut out, line, place);
        out += "r 14\n";
    }
    for line in lines() {
        write_answer(&mut out, &line);
    }
    for word in words() {
        out.push('\n');
        write_word(&mut out, word);
    }
    out += &falsified::WORDS.records(&out);
    out
}

fn write_line(out: &mut String, line: &str, place: usize) {
    out.push_str("\ns ");
    escape(out, line.as_bytes());
    *out += &format!("\nm {place}\n");
}

/// The record of a line, if the reference reads an instruction of it or refuses it as one.
fn write_answer(out: &mut String, line: &str) {
    // A directive is no instruction, and its refusals are others.
    if content(line).starts_with('.') {
        return;
    }
    // Of a label that the instruction names the line alone tells where it stands.
    let targeted = Targeted::new(line);
    let answer = answer(targeted.lines().as_bytes());
    // A label and its colon stand before the mnemonic.
    let place = 2 * answer.labels().len();
    match &answer {
        Answer::Accepted { image, words, .. } if *words == 1 => {
            let word = image[32..].try_into().expect("one word");
            write_line(out, line, place);
            for target in targeted.targets() {
                *out += &format!("n {} {}\n", target.span.start, target.span.len());
            }
            *out += &format!("u {}\n", as_read(targeted.lines(), place));
            write_word(out, u32::from_le_bytes(word));
        }
        Answer::Refused { number, .. } if matches!(number, 8 | 14..=21 | 35) => {
            write_line(out, line, place);
            *out += &format!("r {number}\n");
        }
        _ => {}
    }
}

/// A word, and its line of the listing or its refusal.
fn write_word(out: &mut String, word: u32) {
    *out += &format!("w {word:08x}\n");
    *out += &match line_of(word) {
        Ok(text) => format!("l {text}\n"),
        Err(number) => format!("r {number}\n"),
    };
}

/// The text of a line's instruction with its number as it stands there, not yet reduced: the tokens
/// behind the label, spelled as the listing spells them.
fn as_read(line: &str, place: usize) -> String {
    let tokens = tokens(line).expect("an accepted line has no bad token");
    let mut text = String::new();
    for (at, (token, _)) in tokens.into_iter().skip(place).enumerate() {
        if at == 1 {
            text.push(' ');
        }
        text += &match token {
            Token::Identifier(mnemonic) => mnemonic.to_lowercase(),
            Token::Register(name) => {
                let register = parse_register(&name).expect("an accepted line names registers");
                format!("r{}", register as u8)
            }
            Token::Number(value) => value.to_string(),
            Token::Hex(value) | Token::Binary(value) => value.to_string(),
            Token::Comma => ", ".to_string(),
            Token::LParen => "(".to_string(),
            Token::RParen => ")".to_string(),
            other => panic!("an instruction has no such token: {other:?}"),
        };
    }
    text
}

/// All lines to ask, each once.
fn lines() -> Vec<String> {
    let mut all: Vec<String> = PROGRAM.map(str::to_string).into();
    for source in sources() {
        let source = String::from_utf8(source).expect("the sources are ASCII");
        let line = source.strip_suffix('\n').unwrap_or(&source);
        if !line.contains('\n') {
            all.push(line.to_string());
        }
    }
    all.extend(every_spelling());
    all.extend(every_register());
    all.extend(every_field_end());
    all.extend(every_target());
    let mut seen = HashSet::new();
    all.retain(|line| seen.insert(line.clone()));
    all
}

/// Each mnemonic in lower, upper and two mixed cases, behind a label, and with a letter more.
fn every_spelling() -> Vec<String> {
    let mut lines = Vec::new();
    for row in ROWS {
        let line = plain(&row, ["r12", "r7", "r13"], "9");
        let operands = &line[row.mnemonic.len()..];
        for (upper, label) in [(0, ""), (1, ""), (2, "l: "), (3, "l:")] {
            let letters = row.mnemonic.chars().enumerate();
            let mnemonic = letters.map(|(at, letter)| match upper {
                3 => letter.to_ascii_uppercase(),
                odd if at % 2 + 1 == odd => letter.to_ascii_uppercase(),
                _ => letter,
            });
            lines.push(format!("{label}{}{operands}", mnemonic.collect::<String>()));
        }
        lines.push(format!("{}x{operands}", row.mnemonic));
    }
    lines
}

/// One row of each form.
fn examples() -> impl Iterator<Item = Row> {
    let mut forms: Vec<Form> = Vec::new();
    ROWS.into_iter().rev().filter(move |row| {
        let new = !forms.contains(&row.form);
        forms.push(row.form);
        new
    })
}

/// Each register in each place of each form.
fn every_register() -> Vec<String> {
    let mut lines = Vec::new();
    for row in examples() {
        let places = row.form.places().iter();
        let registers = places.filter(|place| **place == Place::Register).count();
        for place in 0..registers {
            for name in &REGISTERS[..16] {
                let mut names = ["r3", "r5", "r9"];
                names[place] = name;
                lines.push(plain(&row, names, "1"));
            }
        }
    }
    lines
}

/// For each mnemonic with a number: about its field's ends, and the ends of what a token can mean.
fn every_field_end() -> Vec<String> {
    let mut lines = Vec::new();
    for row in ROWS {
        let Some(Field { width, .. }) = row.form.field() else {
            continue;
        };
        let (half, whole) = (1i64 << (width - 1), 1i64 << width);
        for end in [0, half, whole, -half, -whole] {
            for number in [end - 1, end, end + 1] {
                lines.push(plain(&row, ["r1", "r2", "r3"], &number.to_string()));
            }
        }
        for number in [i64::MIN, i64::MAX] {
            lines.push(plain(&row, ["r1", "r2", "r3"], &number.to_string()));
        }
        let most = format!("0x{:x}", u64::MAX);
        lines.push(plain(&row, ["r1", "r2", "r3"], &most));
    }
    lines
}

/// For each mnemonic that takes a label: names of it, alone on the line and not.
fn every_target() -> Vec<String> {
    let mut lines = Vec::new();
    for row in ROWS {
        if !matches!(row.form, Form::Branch | Form::Jump) {
            continue;
        }
        for name in ["x", "_", "r16", "Add", "a_longer_name_42"] {
            let line = plain(&row, ["r6", "r14", "r1"], name);
            lines.push(line.clone());
            lines.push(format!(" \tlabel : {line}\t# {name}"));
        }
    }
    lines
}

/// All words to read, each once.
fn words() -> Vec<u32> {
    let mut all = Vec::new();
    // Each opcode, those that are none too, alone and with every other bit.
    all.extend((0..128).flat_map(|opcode| [opcode, opcode | !0x7F]));
    // Each other bit of each mnemonic: a field's, or one that must be zero.
    for row in ROWS {
        all.extend((7..32).map(|bit| row.opcode | 1 << bit));
        all.extend(field_words(&row));
        all.push(row.opcode | unused_bits(row.form));
    }
    let mut rng = Rng::new(SEED);
    for _ in 0..RANDOM_WORDS {
        let row = rng.pick(&ROWS);
        let bits = rng.bits() as u32 & !0x7F;
        // Most would have an unused bit set.
        let kept = if rng.percent(90) {
            !unused_bits(row.form)
        } else {
            u32::MAX
        };
        all.push(row.opcode | bits & kept);
    }
    let mut seen = HashSet::new();
    all.retain(|word| seen.insert(*word));
    all
}
