//! Labels as jump targets (document 02, request a), laid over the reference, which knows none: it is
//! asked with a number in the place of each.

use std::borrow::Cow;
use std::collections::HashMap;
use std::ops::Range;

use zkir_assembler::assembler::labels_and_words;
use zkir_assembler::lexer::Token;

use crate::answer::{ask, refusal, Answer, Label};
use crate::isa::Form;
use crate::lines::{content, instruction, tokens};

/// The last operand of jal or of a branch, where it is an Identifier.
#[derive(Clone, Debug, PartialEq, Eq)]
pub struct Target {
    /// Where it stands, counted from the text's first byte.
    pub span: Range<usize>,
    /// The line on which it stands, from 1.
    pub line: usize,
    form: Form,
}

/// A text with its targets.
pub struct Targeted<'t> {
    text: &'t str,
    targets: Vec<Target>,
    lines: Cow<'t, str>,
}

impl<'t> Targeted<'t> {
    pub fn new(text: &'t str) -> Self {
        let targets = targets(text);
        let lines = match targets.is_empty() {
            true => Cow::Borrowed(text),
            false => Cow::Owned(padded(text, &targets)),
        };
        Targeted {
            text,
            targets,
            lines,
        }
    }

    /// The targets, in the order of the text.
    pub fn targets(&self) -> &[Target] {
        &self.targets
    }

    /// The text that the reference is asked for what the lines lead to: in each target's place stands
    /// 0, and all else is where it was.
    pub fn lines(&self) -> &str {
        &self.lines
    }

    /// The answer for the text, by the reference's answer for its lines. "33 no such label and 34 ...
    /// both tested after the last line ..., the first such line deciding."
    pub(crate) fn settled(&self, lines: Answer) -> Answer {
        let Answer::Accepted { labels, .. } = &lines else {
            return lines;
        };
        if self.targets.is_empty() {
            return lines;
        }
        let named = self.named(labels);
        let mut distances = Vec::with_capacity(self.targets.len());
        for (target, own) in self.targets.iter().zip(self.own_addresses()) {
            let address = named.get(&self.text[target.span.clone()]);
            match target.distance(address.copied(), own) {
                Ok(distance) => distances.push(distance),
                Err(number) => return refusal(number, target.line, target.line, labels.clone()),
            }
        }
        with_image_of(lines, &self.rewritten(&distances))
    }

    /// The labels' addresses by their spelling.
    fn named(&self, labels: &[Label]) -> HashMap<&str, u64> {
        let named = |label: &Label| {
            let name = &self.text[label.start..label.start + label.length];
            (name, label.address)
        };
        labels.iter().map(named).collect()
    }

    /// The address of each target's instruction. The reference tells it: it is asked with one more
    /// label on a line of its own before each.
    fn own_addresses(&self) -> Vec<u64> {
        let mut stems = (0..).map(|number: u32| format!("own{number}_"));
        let stem = stems.find(|stem| !self.text.contains(stem));
        let stem = stem.expect("no text holds all of them");
        let mut text = String::new();
        let mut targets = self.targets.iter().peekable();
        for (at, line) in (1..).zip(self.lines.split_inclusive('\n')) {
            if targets.next_if(|target| target.line == at).is_some() {
                text += &format!("{stem}{at}:\n");
            }
            text += line;
        }
        let (labels, _) = labels_and_words(&text).expect("the lines are accepted");
        let own = labels
            .into_iter()
            .filter(|(name, _)| name.starts_with(&stem));
        own.map(|(_, address)| address).collect()
    }

    /// The text with these numbers in the targets' places.
    pub fn rewritten(&self, distances: &[i64]) -> String {
        let mut text = String::with_capacity(self.text.len());
        let mut from = 0;
        for (target, distance) in self.targets.iter().zip(distances) {
            text += &self.text[from..target.span.start];
            text += &distance.to_string();
            from = target.span.end;
        }
        text + &self.text[from..]
    }
}

impl Target {
    /// "the label's address minus the instruction's own address, in bytes", or the refusal's number.
    fn distance(&self, address: Option<u64>, own: u64) -> Result<i64, u32> {
        let distance = address.ok_or(33u32)? as i64 - own as i64;
        let field = self.form.field().expect("a target stands for a number");
        // "34 distance outside the branch's signed 17 bits". A jal reaches every label.
        match field.decimals().contains(&distance) {
            true => Ok(distance),
            false => Err(34),
        }
    }
}

/// An accepted answer with the image of another text, which differs in some numbers alone.
fn with_image_of(answer: Answer, text: &str) -> Answer {
    let (
        Answer::Accepted {
            words,
            labels,
            settings,
            ..
        },
        Answer::Accepted {
            image,
            words: words_again,
            labels: labels_again,
            settings: settings_again,
        },
    ) = (answer, ask(text))
    else {
        panic!("a text with numbers for its targets is accepted");
    };
    assert_eq!(
        (words, settings, addresses(&labels)),
        (words_again, settings_again, addresses(&labels_again)),
        "a number changes nothing but its word"
    );
    Answer::Accepted {
        image,
        words,
        labels,
        settings,
    }
}

fn addresses(labels: &[Label]) -> Vec<u64> {
    labels.iter().map(|label| label.address).collect()
}

/// The targets of a text, in its order.
fn targets(text: &str) -> Vec<Target> {
    let mut found = Vec::new();
    let mut start = 0;
    for (line, of_line) in (1..).zip(text.split_inclusive('\n')) {
        if let Some((form, span)) = target_in(of_line) {
            found.push(Target {
                span: start + span.start..start + span.end,
                line,
                form,
            });
        }
        start += of_line.len();
    }
    found
}

/// The form of a line's instruction, and where its target stands in the line.
fn target_in(line: &str) -> Option<(Form, Range<usize>)> {
    let content = content(line);
    // Most lines are seen to have none before they are read.
    if !content.contains(',') || content.ends_with([',', ')', ':']) {
        return None;
    }
    let tokens = tokens(line)?;
    let (row, operands) = instruction(&tokens)?;
    // Where no comma stands before it, that is the line's fault, or one further left is.
    let [.., (Token::Comma, _), (Token::Identifier(_), span)] = operands else {
        return None;
    };
    matches!(row.form, Form::Branch | Form::Jump).then(|| (row.form, span.clone()))
}

/// The text with 0 in each target's place, and blanks behind it, so that nothing moves.
fn padded(text: &str, targets: &[Target]) -> String {
    let mut bytes = text.as_bytes().to_vec();
    for target in targets {
        bytes[target.span.clone()].fill(b' ');
        bytes[target.span.start] = b'0';
    }
    String::from_utf8(bytes).expect("the text is ASCII")
}
