//! Document 01's added limits, laid over the reference's answer.

use crate::answer::{ascii, line_ends, refusal, words_before, words_in, Answer, Label};
use crate::ranges::ask_in_range;
use crate::targets::Targeted;

pub const MOST_SOURCE_BYTES: usize = 1_048_576;
pub const MOST_WORDS: usize = 32_768;

/// The answer when a label table of `table` entries and an image buffer of `room` bytes are lent.
pub fn answer_within(source: &[u8], table: usize, room: usize) -> Answer {
    Asked::new(source).within(table, room)
}

/// A source for which the reference has been asked once; the limits of any buffers can be laid over
/// its answer.
pub struct Asked<'s> {
    source: &'s [u8],
    answer: Answer,
    /// The line of the first instruction over the limit, among those that the reference takes.
    many: Option<usize>,
}

impl<'s> Asked<'s> {
    pub fn new(source: &'s [u8]) -> Self {
        let (answer, many) = match before_any_line(source) {
            Ok(text) => {
                let targeted = Targeted::new(text);
                let lines = ask_in_range(targeted.lines());
                let many = line_of_excess(targeted.lines(), &lines);
                (targeted.settled(lines), many)
            }
            Err(refused) => (refused, None),
        };
        Asked {
            source,
            answer,
            many,
        }
    }

    pub fn source(&self) -> &'s [u8] {
        self.source
    }

    /// The answer with a table and an image buffer that suffice, and without 22.
    pub fn unlimited(&self) -> &Answer {
        &self.answer
    }

    /// The answer when a label table of `table` entries and an image buffer of `room` bytes are lent.
    pub fn within(&self, table: usize, room: usize) -> Answer {
        // A label that the reference enters stands on a line without 3 and 4, and 5 comes before
        // the line's other faults. An instruction that the reference takes has no faults, so 22 is
        // left. What an answer has after its last line, 33 or 34, comes after both, and before 23.
        let labels = self.answer.labels();
        let full = labels.get(table).map(|label| self.line_of(label));
        match (full, self.many) {
            (Some(line), many) if many.is_none_or(|many| line <= many) => {
                refusal(5, line, line, labels[..table].to_vec())
            }
            (_, Some(line)) => {
                let entered = labels.iter().copied();
                let entered = entered.filter(|label| self.line_of(label) <= line);
                refusal(22, line, line, entered.collect())
            }
            _ => in_room(&self.answer, room),
        }
    }

    fn line_of(&self, label: &Label) -> usize {
        line_of(self.source, label.start)
    }
}

/// 1 and 2, or the source as text.
fn before_any_line(source: &[u8]) -> Result<&str, Answer> {
    if source.len() > MOST_SOURCE_BYTES {
        return Err(refusal(1, 0, 0, Vec::new()));
    }
    ascii(source).ok_or_else(|| {
        let byte = source.iter().position(|byte| *byte > 127);
        let line = line_of(source, byte.expect("a byte is above 127"));
        refusal(2, 0, line, Vec::new())
    })
}

/// 23 for an accepted source whose image does not fit.
fn in_room(answer: &Answer, room: usize) -> Answer {
    match answer {
        Answer::Accepted { image, labels, .. } if image.len() > room => Answer::Refused {
            number: 23,
            rust_line: 0,
            true_line: 0,
            labels: labels.clone(),
            needed: image.len(),
        },
        other => other.clone(),
    }
}

/// The line, from 1, on which a byte stands.
fn line_of(source: &[u8], at: usize) -> usize {
    1 + source[..at].iter().filter(|byte| **byte == b'\n').count()
}

/// The line of the first instruction over the limit, among those that the reference takes.
fn line_of_excess(text: &str, answer: &Answer) -> Option<usize> {
    // Short texts need not be asked for their instructions.
    if text.len() < MOST_WORDS || words_before(text, answer) <= MOST_WORDS {
        return None;
    }
    let ends = line_ends(text);
    let taken = match answer {
        Answer::Accepted { .. } => &ends[..],
        Answer::Refused { true_line, .. } => &ends[..true_line - 1],
    };
    Some(1 + taken.partition_point(|end| words_in(&text[..*end]) <= MOST_WORDS))
}
