//! What the library answers for two sources that differ in one line, which holds an instruction in both:
//! "Their images then agree in every byte but, at most, the four of that instruction." (document 02,
//! request b). Where these four stand is counted in the lines, and the reference tells them.

use std::fmt;
use std::ops::Range;

use oracle::gen::{self, Rng, KINDS};
use oracle::model::HEADER;
use oracle::{answer, Answer, Edit};
use zkasm::Label;

use crate::desk::Difference;
use crate::differences::Differences;
use crate::interface::Interface;
use crate::large;
use crate::lengths::more;

/// Of one accepted pair in so many another is made with something falsified, where a byte tells them apart.
const FALSIFIED: usize = 50;

/// What the two image buffers hold before the calls, so that a byte which no call writes differs.
const FILLINGS: [u8; 2] = [0xA5, 0x5A];

/// The pairs drawn from the sources of one kind.
struct Group {
    name: String,
    sources: u64,
    /// The pairs whose sources are both accepted, with no difference.
    accepted: u64,
    /// Those whose edited source is refused.
    refused: u64,
}

/// Draws pairs, and compares what is answered for both of their sources.
pub struct Edits<I> {
    interface: I,
    groups: Vec<Group>,
    /// The falsified pairs that were noticed.
    noticed: u64,
    differences: Differences,
}

impl<I: Interface> Edits<I> {
    pub fn new(interface: I) -> Self {
        Edits {
            interface,
            groups: Vec::new(),
            noticed: 0,
            differences: Differences::default(),
        }
    }

    pub fn every_kind(&mut self, seeds: Range<u64>) {
        for kind in KINDS {
            self.begin(format!("{kind:?}"));
            for seed in seeds.clone() {
                // No two kinds draw alike for the same seed.
                let rng = Rng::new(!seed ^ (kind as u64) << 32);
                self.source(&gen::source(kind, seed), seed, rng);
            }
        }
    }

    /// Sources up to 16 KB, of each kind of `large`.
    pub fn large_sources(&mut self, seeds: Range<u64>) {
        self.begin("up to 16 KB");
        for kind in large::KINDS {
            for seed in seeds.clone() {
                let mut rng = Rng::new(!seed);
                let bytes = 100 + rng.below(16_000);
                self.source(&kind.source(&mut rng, bytes), seed, rng);
            }
        }
    }

    fn begin(&mut self, name: impl Into<String>) {
        self.groups.push(Group {
            name: name.into(),
            sources: 0,
            accepted: 0,
            refused: 0,
        });
    }

    /// Compares a pair drawn from a source, if that is accepted and has an instruction, and keeps count.
    fn source(&mut self, source: &[u8], seed: u64, mut rng: Rng) {
        let group = self.groups.last_mut().expect("a group has begun");
        group.sources += 1;
        let source = std::str::from_utf8(source).expect("the source is ASCII");
        if !accepts(source) {
            return;
        }
        let Some(edit) = Edit::of(source, &mut rng) else {
            return;
        };
        match compare(&mut self.interface, &edit, &mut rng) {
            Ok(true) => {
                group.accepted += 1;
                if rng.below(FALSIFIED) == 0 {
                    self.falsify(&edit, seed, &mut rng);
                }
            }
            Ok(false) => group.refused += 1,
            Err(difference) => {
                let name = &group.name;
                self.differences.add(name, seed, &shown(&edit), &difference);
            }
        }
    }

    /// Falsifies a pair that is accepted, and has a difference if that is not noticed.
    fn falsify(&mut self, edit: &Edit, seed: u64, rng: &mut Rng) {
        let Some(wrong) = falsified(edit, rng) else {
            return;
        };
        match compare(&mut self.interface, &wrong, rng) {
            Ok(true) => {
                let wrong = shown(&wrong);
                self.differences.add("falsified", seed, &wrong, "unnoticed");
            }
            Ok(false) => {}
            Err(_) => self.noticed += 1,
        }
    }

    /// Whether no pair differs, and falsified ones do.
    pub fn is_good(&self) -> bool {
        self.differences.count() == 0 && self.noticed > 0
    }
}

impl<I> fmt::Display for Edits<I> {
    fn fmt(&self, f: &mut fmt::Formatter) -> fmt::Result {
        let mut line = |name: &str, [a, b, c]: [&dyn fmt::Display; 3]| {
            writeln!(f, "{name:50} {a:>11} {b:>11} {c:>11}")
        };
        line("one line edited", [&"sources", &"accepted", &"refused"])?;
        let (mut accepted, mut refused) = (0, 0);
        for group in &self.groups {
            let counts: [&dyn fmt::Display; 3] = [&group.sources, &group.accepted, &group.refused];
            line(&group.name, counts)?;
            accepted += group.accepted;
            refused += group.refused;
        }
        let (differences, noticed) = (self.differences.count(), self.noticed);
        write!(
            f,
            "{accepted} pairs accepted, {refused} refused, {differences} differences; \
             {noticed} falsified and noticed"
        )
    }
}

/// What a call leaves of a source that it accepts.
struct Accepted<'s> {
    words: u64,
    settings: [u64; 3],
    /// Spellings and addresses.
    labels: Vec<(&'s str, u64)>,
    image: Vec<u8>,
}

impl Accepted<'_> {
    fn word(&self, place: usize) -> Option<u32> {
        let bytes = self.image.get(place..place + 4)?;
        Some(u32::from_le_bytes(bytes.try_into().expect("four bytes")))
    }
}

/// Calls with a table and an image buffer of these lengths. Answers what is left, or the refusal.
fn ask<'s, I: Interface>(
    interface: &mut I,
    source: &'s str,
    [table, room]: [usize; 2],
    filling: u8,
) -> Result<Accepted<'s>, u32> {
    let mut table = vec![Label::default(); table];
    let mut image = vec![filling; room];
    let (number, answer) = interface.assemble(source.as_bytes(), &mut table, &mut image);
    if number != 0 {
        return Err(number);
    }
    let [words, labels, bits, data, addr, ..] = answer;
    let spelled = |label: &Label| {
        let name = &source[label.start..label.start + label.length];
        (name, label.address)
    };
    image.truncate(HEADER + 4 * words as usize);
    Ok(Accepted {
        words,
        settings: [bits, data, addr],
        labels: table[..labels as usize].iter().map(spelled).collect(),
        image,
    })
}

/// Whether the reference accepts a source.
fn accepts(source: &str) -> bool {
    matches!(answer(source.as_bytes()), Answer::Accepted { .. })
}

/// Whether both sources are accepted, each with buffers that suffice, half of them just so; or what differs. Only the
/// edited source may be refused, and only where the oracle refuses its line, with the distance in a label's place.
fn compare<I: Interface>(
    interface: &mut I,
    edit: &Edit,
    rng: &mut Rng,
) -> Result<bool, Difference> {
    let answers = [0, 1].map(|at| {
        let table = edit.labels + more(rng);
        let room = HEADER + 4 * edit.instructions + more(rng);
        ask(interface, &edit.sources[at], [table, room], FILLINGS[at])
    });
    match answers {
        [Ok(one), Ok(other)] => settle(edit, &one, &other).map(|()| true),
        [Err(number), _] => Err(format!("{number} is given for the first source")),
        [_, Err(number)] if edit.words[1].is_some() => {
            Err(format!("{number} is given for the edited source"))
        }
        _ => Ok(false),
    }
}

/// Names the first part of two answers that is not as it should be.
fn settle(edit: &Edit, one: &Accepted, other: &Accepted) -> Result<(), Difference> {
    let place = HEADER + 4 * edit.above;
    let after = place + 4;
    let (image, edited) = (&one.image, &other.image);
    let words = [one.word(place), other.word(place)];
    let parts = [
        ("count of words", one.words == edit.instructions as u64),
        ("count of words", one.words == other.words),
        ("settings", one.settings == other.settings),
        ("count of labels", one.labels.len() == edit.labels),
        ("labels", one.labels == other.labels),
        ("image's length", image.len() == edited.len()),
        (
            "image before the word",
            image.get(..place) == edited.get(..place),
        ),
        (
            "image after the word",
            image.get(after..) == edited.get(after..),
        ),
        ("first source's word", words[0] == edit.words[0]),
        ("second source's word", words[1] == edit.words[1]),
    ];
    match parts.iter().find(|(_, same)| !same) {
        Some((part, _)) => Err(format!("the {part} at byte {place} differs")),
        None => Ok(()),
    }
}

/// The pair with the place one word off, or with a second line edited; none where no byte tells it.
fn falsified(edit: &Edit, rng: &mut Rng) -> Option<Edit> {
    if edit.words[0] == edit.words[1] {
        return None;
    }
    let above = match rng.below(3) {
        0 => edit.above + 1,
        1 => edit.above.checked_sub(1)?,
        _ => return edited_again(edit, rng),
    };
    Some(Edit {
        above,
        ..edit.clone()
    })
}

/// The pair with a second line edited, if that gives another word.
fn edited_again(edit: &Edit, rng: &mut Rng) -> Option<Edit> {
    let [one, other] = &edit.sources;
    let again = Edit::of(other, rng)?;
    let told = again.words[1].is_some() && again.words[0] != again.words[1];
    if again.above == edit.above || !told {
        return None;
    }
    let [_, twice] = again.sources;
    Some(Edit {
        sources: [one.clone(), twice],
        ..edit.clone()
    })
}

/// Both sources, as they are shown where something differs.
fn shown(edit: &Edit) -> Vec<u8> {
    edit.sources.join("\n# edited:\n").into_bytes()
}

#[cfg(test)]
mod tests {
    use super::*;
    use crate::interface::{Crate, Told};

    /// A pair, how many instructions and labels the first source has, how many instructions are above the
    /// edited line, and its words.
    type Pair = ([&'static str; 2], [usize; 2], usize, [u32; 2]);

    const BETWEEN: Pair = (
        [
            "a: ecall\njal r0, a\nb: ecall\n.config limb_bits 22",
            "a: ecall\njal r0, b\nb: ecall\n.config limb_bits 22",
        ],
        [3, 2],
        1,
        [0xFFFF_E048, 0x0000_2048],
    );

    #[rustfmt::skip]
    const PAIRS: [Pair; 7] = [
        BETWEEN,
        (["ecall", "ebreak\n"], [1, 0], 0, [0x50, 0x51]),
        (["a: addi r1, r0, 1\njal r0, a", "a: addi r1, r0, 70\njal r0, a"], [2, 1], 0, [0x8088, 0x23_0088]),
        (["a: addi r1, r0, 1\nb: jal r0, a", "a : jal r0, b # x\nb: jal r0, a"], [2, 2], 0, [0x8088, 0x2048]),
        (["a: ecall\nbeq r1, r2, a", "a: ecall\nbeq r1, r2, -4"], [2, 1], 1, [0xFFFE_10C0, 0xFFFE_10C0]),
        (["jal r0, a\necall\na:", "jal r0, a # same\necall\na:"], [2, 1], 0, [0x4048, 0x4048]),
        (["# one\njal r0, b\necall\nb: ecall", "# one\njal r0, b\nebreak\nb: ecall"], [3, 1], 1, [0x50, 0x51]),
    ];

    /// What differs in pairs that are no edits of one line, or have other counts, places or words.
    #[rustfmt::skip]
    const OTHERS: [(Pair, &str); 11] = [
        ((["x: ecall\necall", "ecall\necall"], [2, 1], 0, [0x50, 0x50]), "labels"),
        ((["x: ecall\necall", "y: ecall\necall"], [2, 1], 0, [0x50, 0x50]), "labels"),
        ((["ecall\na: ecall\njal r0, a", "# gone\na: ecall\njal r0, a"], [3, 1], 0, [0x50, 0x50]), "count of words"),
        ((["ecall\njal r0, a\na:", "ecall\njal r0, a\na: ecall"], [2, 1], 2, [0x50, 0x50]), "23 is given"),
        ((["ecall\n.config limb_bits 22", "ecall\n.config limb_bits 24"], [1, 0], 0, [0x50, 0x50]), "settings"),
        ((["ecall\nebreak", "ebreak\necall"], [2, 0], 0, [0x50, 0x51]), "image after the word"),
        ((["ecall\nebreak", "ebreak\nebreak"], [2, 0], 1, [0x51, 0x51]), "image before the word"),
        ((["ecall", "ebreak"], [1, 0], 0, [0x51, 0x51]), "first source's word"),
        ((["ecall", "ebreak"], [1, 0], 0, [0x50, 0x50]), "second source's word"),
        ((["ecall", "ebreak"], [2, 0], 0, [0x50, 0x51]), "count of words"),
        ((["a: ecall", "a: ebreak"], [1, 2], 0, [0x50, 0x51]), "count of labels"),
    ];

    fn compared<I: Interface>(mut interface: I, pair: Pair) -> Result<bool, Difference> {
        let (sources, [instructions, labels], above, words) = pair;
        let edit = Edit {
            sources: sources.map(str::to_string),
            above,
            words: words.map(Some),
            instructions,
            labels,
        };
        compare(&mut interface, &edit, &mut Rng::new(1))
    }

    #[test]
    fn an_edited_line_touches_its_own_word() {
        for pair in PAIRS {
            assert_eq!(compared(Crate, pair), Ok(true), "{pair:?}");
        }
    }

    #[test]
    fn other_pairs_are_noticed() {
        for (pair, part) in OTHERS {
            let difference = compared(Crate, pair).expect_err(part);
            assert!(difference.contains(part), "{pair:?}: {difference}");
        }
    }

    /// One thing that is wrong in what a call leaves.
    type Fault = fn(&mut Told<8>, &mut [Label], &mut [u8]);

    /// The library with a fault in its second answer.
    struct Off {
        calls: usize,
        fault: Fault,
    }

    impl Interface for Off {
        fn assemble(&mut self, source: &[u8], table: &mut [Label], image: &mut [u8]) -> Told<8> {
            let mut told = Crate.assemble(source, table, image);
            self.calls += 1;
            if self.calls == 2 {
                (self.fault)(&mut told, table, image);
            }
            told
        }

        fn open(&mut self, image: &[u8]) -> Told<12> {
            Crate.open(image)
        }

        fn list(&mut self, image: &[u8], text: &mut [u8]) -> Told<3> {
            Crate.list(image, text)
        }
    }

    #[test]
    fn each_fault_in_one_answer_is_noticed() {
        let faults: [(Fault, &str); 13] = [
            (|told, _, _| told.0 = 5, "5 is given"),
            (|told, _, _| told.0 = 23, "23 is given"),
            (|told, _, _| told.0 = 33, "33 is given"),
            (|told, _, _| told.1[0] -= 1, "count of words"),
            (|told, _, _| told.1[1] -= 1, "labels"),
            (|told, _, _| told.1[2] += 2, "settings"),
            (|_, table, _| table[1].start -= 1, "labels"),
            (|_, table, _| table[1].length -= 1, "labels"),
            (|_, table, _| table[1].address += 4, "labels"),
            (|_, _, image| image[8] = 24, "image before the word"),
            (|_, _, image| image[35] = 1, "image before the word"),
            (|_, _, image| image[36] = 0x49, "second source's word"),
            (|_, _, image| image[40] = 0x51, "image after the word"),
        ];
        for (fault, part) in faults {
            let off = Off { calls: 0, fault };
            let difference = compared(off, BETWEEN).expect_err(part);
            assert!(difference.contains(part), "{difference}");
        }
    }

    #[test]
    fn falsified_pairs_are_noticed() {
        let mut edits = Edits::new(Crate);
        edits.every_kind(0..500);
        assert!(edits.is_good(), "{edits}");
        assert!(edits.noticed > 5, "{edits}");
    }
}
