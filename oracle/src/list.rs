//! The text format of the lists. `README.md` describes it.

use std::fmt::Write;

use crate::answer::Answer;

/// The length of the label table lent when a record does not say it.
pub const USUAL_TABLE: usize = 1024;

/// At most this many bytes of a source or a text stand in one piece.
const PIECE: usize = 200;

/// At most this many bytes of an image stand in one line.
const IMAGE_LINE: usize = 256;

/// This many equal lines or words in a row, and more, stand in one line with their count.
const RUN: usize = 64;

/// A record: what is asked, and the lines that answer it.
#[derive(Debug, Default)]
pub struct Record {
    pub source: Vec<u8>,
    pub table: Option<usize>,
    pub room: Option<usize>,
    pub answer: Vec<String>,
}

/// Writes a source and its answer as a record, with no empty line behind it.
pub fn write_record(out: &mut String, source: &[u8], answer: &Answer) {
    write_pieces(out, source);
    for line in answer_lines(answer) {
        out.push_str(&line);
        out.push('\n');
    }
}

/// A text in `s` lines: a new piece after each byte 10, and none longer than `PIECE` bytes; and in
/// an `x` line where lines repeat.
pub fn write_pieces(out: &mut String, text: &[u8]) {
    if text.is_empty() {
        out.push_str("s \n");
    }
    let lines: Vec<&[u8]> = text.split_inclusive(|byte| *byte == b'\n').collect();
    for equal in lines.chunk_by(|left, right| left == right) {
        let line = equal[0];
        if equal.len() >= RUN && line.len() <= PIECE {
            write_piece(out, &format!("x {}", equal.len()), line);
            continue;
        }
        for piece in equal.iter().flat_map(|line| line.chunks(PIECE)) {
            write_piece(out, "s", piece);
        }
    }
}

fn write_piece(out: &mut String, tag: &str, piece: &[u8]) {
    *out += &format!("{tag} ");
    escape(out, piece);
    out.push('\n');
}

/// An image in `i` lines, and in a `j` line where words repeat.
pub fn image_lines(image: &[u8]) -> Vec<String> {
    let (header, code) = image.split_at(image.len().min(32));
    let words: Vec<&[u8]> = code.chunks(4).collect();
    let mut lines = Vec::new();
    let mut bytes = header.to_vec();
    for equal in words.chunk_by(|left, right| left == right) {
        if equal.len() < RUN {
            bytes.extend(equal.concat());
            continue;
        }
        lines.extend(bytes.chunks(IMAGE_LINE).map(image_line));
        bytes.clear();
        lines.push(format!("j {} {}", equal.len(), hex(equal[0])));
    }
    lines.extend(bytes.chunks(IMAGE_LINE).map(image_line));
    lines
}

fn image_line(bytes: &[u8]) -> String {
    format!("i {}", hex(bytes))
}

fn hex(bytes: &[u8]) -> String {
    bytes.iter().map(|byte| format!("{byte:02x}")).collect()
}

/// The image of a record's lines.
pub fn read_image<'a>(lines: impl Iterator<Item = &'a str>) -> Vec<u8> {
    let mut image = Vec::new();
    for line in lines {
        match line.split_once(' ') {
            Some(("i", bytes)) => image.extend(unhex(bytes)),
            Some(("j", repeated)) => {
                let (count, bytes) = repeated.split_once(' ').expect("a count and bytes");
                image.extend(unhex(bytes).repeat(count.parse().expect("a number")));
            }
            _ => {}
        }
    }
    image
}

fn unhex(text: &str) -> Vec<u8> {
    let byte = |at| u8::from_str_radix(&text[at..at + 2], 16).expect("two hex digits");
    (0..text.len()).step_by(2).map(byte).collect()
}

/// The lines of an answer: `a` or `r`, the labels, the image.
pub fn answer_lines(answer: &Answer) -> Vec<String> {
    let count = answer.labels().len();
    let mut lines = vec![match answer {
        Answer::Accepted {
            words, settings, ..
        } => format!(
            "a {words} {count} {} {} {}",
            settings.limb_bits, settings.data_limbs, settings.addr_limbs
        ),
        Answer::Refused {
            number,
            rust_line,
            true_line,
            needed,
            ..
        } => format!("r {number} {rust_line} {true_line} {count} {needed}"),
    }];
    lines.extend(
        answer
            .labels()
            .iter()
            .map(|label| format!("l {} {} {}", label.start, label.length, label.address)),
    );
    if let Answer::Accepted { image, .. } = answer {
        lines.extend(image_lines(image));
    }
    lines
}

/// Bytes 32 to 126 but `\` stand for themselves, all others are `\` and two hex digits.
pub fn escape(out: &mut String, bytes: &[u8]) {
    for byte in bytes {
        match byte {
            b' '..=b'~' if *byte != b'\\' => out.push(char::from(*byte)),
            _ => write!(out, "\\{byte:02x}").expect("a String takes all"),
        }
    }
}

fn unescape(text: &str) -> Vec<u8> {
    let mut bytes = Vec::with_capacity(text.len());
    let mut rest = text;
    while let Some(at) = rest.find('\\') {
        bytes.extend_from_slice(&rest.as_bytes()[..at]);
        bytes.push(u8::from_str_radix(&rest[at + 1..at + 3], 16).expect("two hex digits"));
        rest = &rest[at + 3..];
    }
    bytes.extend_from_slice(rest.as_bytes());
    bytes
}

/// The records of a list of sources or of lines.
pub fn read(list: &str) -> Vec<Record> {
    let body = list
        .lines()
        .skip_while(|line| line.starts_with('#') || line.is_empty());
    let mut records = vec![Record::default()];
    for line in body {
        match line {
            "" => records.push(Record::default()),
            line => add_line(records.last_mut().expect("there is a record"), line),
        }
    }
    records
}

fn add_line(record: &mut Record, line: &str) {
    let number = |text: &str| text.parse().expect("a number");
    match line.split_once(' ') {
        Some(("s", piece)) => record.source.extend(unescape(piece)),
        Some(("x", repeated)) => {
            let (count, piece) = repeated.split_once(' ').expect("a count and a piece");
            record.source.extend(unescape(piece).repeat(number(count)));
        }
        Some(("t", length)) => record.table = Some(number(length)),
        Some(("b", length)) => record.room = Some(number(length)),
        _ => record.answer.push(line.to_string()),
    }
}
