//! What the Rust reference answers for a source, told in document 01's numbers.

use zkir_assembler::assembler::{assemble, labels_and_words};
use zkir_assembler::error::AssemblerError;
use zkir_spec::{Config, ConfigError, Program};

use crate::limits::{MOST_SOURCE_BYTES, MOST_WORDS};
use crate::ranges::ask_in_range;
use crate::targets::Targeted;

#[derive(Clone, Debug, PartialEq, Eq)]
pub enum Answer {
    Accepted {
        image: Vec<u8>,
        words: usize,
        labels: Vec<Label>,
        settings: Settings,
    },
    Refused {
        number: u32,
        rust_line: usize,
        true_line: usize,
        labels: Vec<Label>,
        /// The image's length for 23, otherwise 0.
        needed: usize,
    },
}

/// Where a label's Identifier stands, counted from the source's first byte, and its address.
#[derive(Clone, Copy, Debug, PartialEq, Eq)]
pub struct Label {
    pub start: usize,
    pub length: usize,
    pub address: u64,
}

#[derive(Clone, Copy, Debug, PartialEq, Eq)]
pub struct Settings {
    pub limb_bits: u8,
    pub data_limbs: u8,
    pub addr_limbs: u8,
}

impl From<Config> for Settings {
    fn from(config: Config) -> Self {
        Settings {
            limb_bits: config.limb_bits,
            data_limbs: config.data_limbs,
            addr_limbs: config.addr_limbs,
        }
    }
}

impl Answer {
    pub fn labels(&self) -> &[Label] {
        match self {
            Answer::Accepted { labels, .. } | Answer::Refused { labels, .. } => labels,
        }
    }
}

/// The reference's answer, with labels as jump targets and with numbers that must fit. The reference
/// knows none of document 01's added limits, so it is asked only where they do not matter.
pub fn answer(source: &[u8]) -> Answer {
    assert!(source.len() <= MOST_SOURCE_BYTES, "the source is too long");
    let targeted = Targeted::new(ascii(source).expect("the source is ASCII"));
    let lines = ask_in_range(targeted.lines());
    assert!(
        words_before(targeted.lines(), &lines) <= MOST_WORDS,
        "the source has too many instructions"
    );
    targeted.settled(lines)
}

/// A refusal that needs no length.
pub(crate) fn refusal(
    number: u32,
    rust_line: usize,
    true_line: usize,
    labels: Vec<Label>,
) -> Answer {
    Answer::Refused {
        number,
        rust_line,
        true_line,
        labels,
        needed: 0,
    }
}

pub(crate) fn ascii(source: &[u8]) -> Option<&str> {
    std::str::from_utf8(source).ok().filter(|s| s.is_ascii())
}

/// The reference's own answer, whatever the added limits say and whether numbers fit or not.
pub(crate) fn ask(text: &str) -> Answer {
    match assemble(text) {
        Ok(program) => accepted(text, &program),
        Err(error) => refused(text, &error),
    }
}

/// How many instructions the reference takes before it ends or refuses.
pub(crate) fn words_before(text: &str, answer: &Answer) -> usize {
    match answer {
        Answer::Accepted { words, .. } => *words,
        Answer::Refused { true_line, .. } => {
            let ends = line_ends(text);
            words_in(&text[..start_of(&ends, *true_line)])
        }
    }
}

/// How many instructions an accepted text has.
pub(crate) fn words_in(text: &str) -> usize {
    labels_and_words(text).expect("the text is accepted").1
}

/// The ends of the lines, each behind its byte 10.
pub(crate) fn line_ends(text: &str) -> Vec<usize> {
    let newlines = text.bytes().enumerate().filter(|(_, byte)| *byte == b'\n');
    newlines.map(|(at, _)| at + 1).chain([text.len()]).collect()
}

/// Where a line, counted from 1, begins.
fn start_of(ends: &[usize], line: usize) -> usize {
    match line {
        1 => 0,
        line => ends[line - 2],
    }
}

fn accepted(text: &str, program: &Program) -> Answer {
    let (entered, words) = labels_and_words(text).expect("an assembled text passes first_pass");
    Answer::Accepted {
        image: program.to_bytes(),
        words,
        labels: placed(text, entered),
        settings: program.config().into(),
    }
}

fn refused(text: &str, error: &AssemblerError) -> Answer {
    let (number, rust_line) = numbered(error);
    // The reference reads line by line and stops at the first fault. So the first refused line is
    // the last of the shortest refused beginning, and every longer beginning is refused too.
    let ends = line_ends(text);
    let fault = ends.partition_point(|end| assemble(&text[..*end]).is_ok());
    let true_line = fault + 1;
    let line = start_of(&ends, true_line)..ends[fault];
    let labels = placed(text, entered_before(text, line, number));
    refusal(number, rust_line, true_line, labels)
}

/// The labels entered before the fault in a line: those of the lines above it, and its own if the
/// reference takes the line cut behind its colon.
fn entered_before(text: &str, line: std::ops::Range<usize>, number: u32) -> Vec<(String, u64)> {
    // The whole line is cut into tokens before its label is looked at.
    if number != BAD_TOKEN {
        if let Some(colon) = text[line.clone()].find(':') {
            if let Ok((labels, _)) = labels_and_words(&text[..line.start + colon + 1]) {
                return labels;
            }
        }
    }
    let above = labels_and_words(&text[..line.start]);
    above.expect("the lines above the fault are accepted").0
}

/// Finds each label's place. Labels come in the order of their lines, and a label's Identifier is
/// the first thing on its line that is not blank.
fn placed(text: &str, entered: Vec<(String, u64)>) -> Vec<Label> {
    let mut next_line = 0;
    let mut labels = Vec::with_capacity(entered.len());
    for (name, address) in entered {
        let start = loop {
            let line = &text[next_line..];
            let line = &line[..line.find('\n').map_or(line.len(), |end| end + 1)];
            let found = label_in(line, &name).map(|at| next_line + at);
            next_line += line.len();
            match found {
                Some(start) => break start,
                None => assert!(!line.is_empty(), "a label stands on a line"),
            }
        };
        labels.push(Label {
            start,
            length: name.len(),
            address,
        });
    }
    labels
}

/// Where `name` stands in a line that it labels.
fn label_in(line: &str, name: &str) -> Option<usize> {
    let text = line.trim_start();
    let rest = text.strip_prefix(name)?;
    let behind = rest.trim_start_matches([' ', '\t']);
    behind.starts_with(':').then_some(line.len() - text.len())
}

const BAD_TOKEN: u32 = 3;

/// Document 01's number for an error of the reference, and the line that the error carries.
fn numbered(error: &AssemblerError) -> (u32, usize) {
    match error {
        AssemblerError::SyntaxError { line, message } => (syntax_number(message), *line),
        AssemblerError::InvalidConfigValue { line, .. } => (9, *line),
        AssemblerError::ConfigError { line, source } => (config_number(*source), *line),
        AssemblerError::InvalidInstruction { line, .. } => (15, *line),
        AssemblerError::InvalidRegister { line, .. } => (18, *line),
        other => panic!("assembling gives no such error: {other:?}"),
    }
}

fn config_number(error: ConfigError) -> u32 {
    match error {
        ConfigError::InvalidLimbBits => 10,
        ConfigError::OddLimbBits => 11,
        ConfigError::InvalidDataLimbs => 12,
        ConfigError::InvalidAddrLimbs => 13,
    }
}

/// The beginnings of the reference's syntax messages. Text from the source comes only behind them.
const SYNTAX_MESSAGES: [(&str, u32); 19] = [
    ("Invalid token at position ", BAD_TOKEN),
    ("Duplicate label: ", 4),
    (".config requires 2 arguments", 6),
    ("Config key must be an identifier", 7),
    ("Expected number, got ", 8),
    ("Expected instruction mnemonic, got ", 14),
    ("Instruction takes no operands", 16),
    ("R-type requires 3 operands", 16),
    ("I-type requires 3 operands", 16),
    ("Shift requires 3 operands", 16),
    ("Load requires format", 16),
    ("Store requires format", 16),
    ("Branch requires 3 operands", 16),
    ("JAL requires 2 operands", 16),
    ("JALR requires 3 operands", 16),
    ("Expected register, got ", 17),
    ("Expected comma, got ", 19),
    ("Expected '(', got ", 20),
    ("Expected ')', got ", 21),
];

fn syntax_number(message: &str) -> u32 {
    let known = SYNTAX_MESSAGES
        .iter()
        .find(|(beginning, _)| message.starts_with(beginning));
    match known {
        Some((_, number)) => *number,
        None => panic!("assembling gives no such message: {message}"),
    }
}
