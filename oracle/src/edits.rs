//! Two sources that differ in one line only, which holds an instruction in both, with the same label
//! before it or none in both (document 02, request b). How many instructions stand above a line is
//! counted here, and no assembler is asked for it.

use std::ops::Range;

use crate::answer::{answer, Answer};
use crate::gen::{redrawn_line, Rng};
use crate::lines::{content, tokens, Placed};
use crate::targets::{Target, Targeted};

/// A source and the same with one line edited.
#[derive(Clone, Debug)]
pub struct Edit {
    /// A final byte 10, which adds an empty line, may stand in one of them alone.
    pub sources: [String; 2],
    /// How many instructions stand on the lines above the edited one.
    pub above: usize,
    /// The edited line's word in each, unless it is refused.
    pub words: [Option<u32>; 2],
    /// How many instructions and labels each has, if it is accepted.
    pub instructions: usize,
    pub labels: usize,
}

impl Edit {
    /// Draws one line of an accepted text anew, if it has an instruction.
    pub fn of(text: &str, rng: &mut Rng) -> Option<Edit> {
        let lines = lines(text);
        let all = lines.iter().filter(|line| !line.instruction.is_empty());
        let all: Vec<&Line> = all.collect();
        if all.is_empty() {
            return None;
        }
        let line = rng.pick(&all);
        let labels: Vec<&str> = lines.iter().filter_map(|line| line.label).collect();
        let old = &text[line.span.clone()];
        let new = line.redrawn(rng, &labels, old.ends_with('\n'));
        let (before, after) = (&text[..line.span.start], &text[line.span.end..]);
        let mut sources = [text.to_string(), [before, &new, after].concat()];
        if rng.percent(20) {
            toggle_end(&mut sources[rng.below(2)]);
        }
        Some(Edit {
            sources,
            above: line.above,
            words: [old, &new].map(|text| word_of(text, line.above, &lines)),
            instructions: all.len(),
            labels: labels.len(),
        })
    }
}

/// A line of an accepted text.
struct Line<'t> {
    /// Where it stands in the text, its byte 10 with it.
    span: Range<usize>,
    label: Option<&'t str>,
    /// Its instruction; empty where it holds none.
    instruction: &'t str,
    /// How many instructions stand on the lines above it.
    above: usize,
}

impl Line<'_> {
    /// Another line for its place, with the same label and with a byte 10 at its end or none.
    fn redrawn(&self, rng: &mut Rng, labels: &[&str], ended: bool) -> String {
        let tokens = tokens(self.instruction).expect("an accepted text has no bad token");
        let spelled = |(_, span): &Placed| &self.instruction[span.clone()];
        let instruction: Vec<&str> = tokens.iter().map(spelled).collect();
        let line = redrawn_line(rng, self.label, &instruction, labels);
        let mut line = String::from_utf8(line).expect("the line is ASCII");
        if !ended {
            line.pop();
        }
        line
    }
}

/// The lines of an accepted text.
fn lines(text: &str) -> Vec<Line<'_>> {
    let (mut start, mut above) = (0, 0);
    let read = |line| {
        let (label, instruction) = label_and_instruction(line);
        let line = Line {
            span: start..start + line.len(),
            label,
            instruction,
            above,
        };
        start = line.span.end;
        above += usize::from(!line.instruction.is_empty());
        line
    };
    text.split_inclusive('\n').map(read).collect()
}

/// A line's label and its instruction. In an accepted text a colon follows a label or stands in a
/// directive.
fn label_and_instruction(line: &str) -> (Option<&str>, &str) {
    let content = content(line);
    if content.starts_with('.') {
        return (None, "");
    }
    match content.split_once(':') {
        Some((label, instruction)) => (Some(label.trim_end()), instruction.trim_start()),
        None => (None, content),
    }
}

/// The word that the reference makes of a line alone, if it takes it and its number fits. Where the line
/// names a label of these lines, it gets the distance from an instruction with so many others above it,
/// which does not fit if the label is too far from a branch.
fn word_of(text: &str, above: usize, lines: &[Line]) -> Option<u32> {
    let targeted = Targeted::new(text);
    let distance = |target: &Target| {
        let name = &text[target.span.clone()];
        let label = lines.iter().find(|line| line.label == Some(name))?;
        Some(4 * (label.above as i64 - above as i64))
    };
    let distances: Option<Vec<i64>> = targeted.targets().iter().map(distance).collect();
    match answer(targeted.rewritten(&distances?).as_bytes()) {
        Answer::Accepted { image, .. } => {
            let word = image[32..].try_into().expect("a line has one word");
            Some(u32::from_le_bytes(word))
        }
        Answer::Refused { .. } => None,
    }
}

/// Takes a text's final byte 10 away, or adds one.
fn toggle_end(text: &mut String) {
    if text.ends_with('\n') {
        text.pop();
    } else {
        text.push('\n');
    }
}
