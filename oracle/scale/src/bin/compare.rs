//! Compares the library with the Rust reference, source by source.
//!
//!     compare SEEDS [FIRST]
//!
//! SEEDS is the number of sources of each kind of the generator, FIRST the first seed. About half of
//! SEEDS pairs of sources differ in one line. It ends with an error if anything differs, if there is a
//! refusal that no source met, or if no falsified pair was noticed, as with few seeds.

use std::ops::Range;
use std::process::ExitCode;
use std::time::Instant;

use oracle::gen::{self, Rng, KINDS};
use oracle::{Answer, Asked, MOST_SOURCE_BYTES, MOST_WORDS};
use scale::arguments::two_numbers;
use scale::desk::{enough, Desk, Difference};
use scale::differences::Differences;
use scale::edits::Edits;
use scale::interface::{Crate, Exported};
use scale::large;
use scale::lengths::{about, more};
use scale::tally::Call;

/// A long source: its labels share hash buckets.
const LONG: usize = 65_536;

/// Sources of one kind.
struct Group {
    name: String,
    sources: u64,
    accepted: u64,
}

struct Run {
    desk: Desk<Crate>,
    /// Asked for some of the sources.
    exported: Desk<Exported>,
    groups: Vec<Group>,
    differences: Differences,
    edits: Edits<Crate>,
}

fn main() -> ExitCode {
    let Some((seeds, first)) = two_numbers() else {
        eprintln!("compare SEEDS [FIRST]");
        return ExitCode::FAILURE;
    };
    let begin = Instant::now();
    let mut run = Run {
        desk: Desk::new(Crate),
        exported: Desk::new(Exported::default()),
        groups: Vec::new(),
        differences: Differences::default(),
        edits: Edits::new(Crate),
    };
    run.every_kind(first..first + seeds);
    run.every_short_line();
    run.every_short_source();
    run.bytes_above_127(first..first + seeds.div_ceil(10));
    run.large_sources(first..first + seeds.div_ceil(1000));
    run.long_sources(first..first + seeds.div_ceil(20_000));
    run.limits();
    run.edits.every_kind(first..first + seeds.div_ceil(6));
    run.edits
        .large_sources(first..first + seeds.div_ceil(20_000));
    let good = run.report();
    println!("{:.0} s", begin.elapsed().as_secs_f64());
    match good {
        true => ExitCode::SUCCESS,
        false => ExitCode::FAILURE,
    }
}

impl Run {
    fn begin(&mut self, name: impl Into<String>) {
        self.groups.push(Group {
            name: name.into(),
            sources: 0,
            accepted: 0,
        });
    }

    fn every_kind(&mut self, seeds: Range<u64>) {
        for kind in KINDS {
            self.begin(format!("{kind:?}"));
            for seed in seeds.clone() {
                self.source(&gen::source(kind, seed), seed);
            }
        }
    }

    fn every_short_line(&mut self) {
        for tokens in 1..=4 {
            self.begin(format!("every line of {tokens} tokens of the alphabet"));
            for index in 0..gen::short_lines(tokens) {
                self.source(&gen::short_line(tokens, index), index);
            }
        }
    }

    fn every_short_source(&mut self) {
        for length in 0..=3 {
            self.begin(format!("every ASCII source of {length} bytes"));
            for index in 0..1_u64 << (7 * length) {
                let byte = |at| (index >> (7 * at)) as u8 & 127;
                let source: Vec<u8> = (0..length).map(byte).collect();
                self.source(&source, index);
            }
        }
    }

    /// Sources of all kinds, with one byte changed.
    fn bytes_above_127(&mut self, seeds: Range<u64>) {
        self.begin("a byte above 127");
        for seed in seeds {
            let mut rng = Rng::new(!seed);
            let mut source = gen::source(rng.pick(&KINDS), seed);
            source.push(b'\n');
            let at = rng.below(source.len());
            source[at] = 128 + rng.below(128) as u8;
            self.source(&source, seed);
        }
    }

    /// Sources up to 16 KB, as they are, with a line repeated, with one more instruction whose number may
    /// not fit, or with a byte changed.
    fn large_sources(&mut self, seeds: Range<u64>) {
        for kind in large::KINDS {
            self.begin(kind.name);
            for seed in seeds.clone() {
                let mut rng = Rng::new(!seed);
                let bytes = 100 + rng.below(16_000);
                let mut source = kind.source(&mut rng, bytes);
                spoil(&mut rng, &mut source);
                self.source(&source, seed);
            }
        }
    }

    /// Long sources.
    fn long_sources(&mut self, seeds: Range<u64>) {
        for kind in large::KINDS {
            self.begin(format!("{}, about 64 KB and more", kind.name));
            for seed in seeds.clone() {
                let mut rng = Rng::new(!seed);
                let longer = LONG + rng.below(3 * LONG);
                for bytes in [LONG - 1, LONG, longer] {
                    let mut source = kind.source(&mut rng, bytes.min(kind.most));
                    spoil(&mut rng, &mut source);
                    self.source(&source, seed);
                }
            }
        }
    }

    /// As many instructions and as many bytes as there may be, one less and one more.
    fn limits(&mut self) {
        self.begin("about the limits");
        for words in MOST_WORDS - 1..=MOST_WORDS + 1 {
            for last in [
                "",
                "last:",
                "last: ecall",
                "$",
                "l7:",
                "jal",
                "addi r1, r0, 65536",
                "last: slli r1, r2, -1",
            ] {
                self.source(&many_words(words, last), words as u64);
            }
        }
        for bytes in MOST_SOURCE_BYTES - 1..=MOST_SOURCE_BYTES + 1 {
            for filling in *b" #\n" {
                let mut source = many_words(4, "");
                source.resize(bytes, filling);
                self.source(&source, bytes as u64);
            }
        }
        self.far_targets();
    }

    /// Labels as far away as a branch reaches, a word less and one more, and as far as can be.
    fn far_targets(&mut self) {
        self.begin("targets about a branch's reach");
        for words in (16_382..=16_385).chain(MOST_WORDS - 2..=MOST_WORDS) {
            for jump in [
                "jal r15, far",
                "beq r1, r2, far",
                "BGEU r15, r0, far # away",
            ] {
                let forward = [jump.as_bytes(), b"\n", &many_words(words - 1, "far: ecall")];
                let backward = [b"far:\n", &many_words(words, jump)[..]];
                self.source(&forward.concat(), words as u64);
                self.source(&backward.concat(), words as u64);
            }
        }
    }

    /// Compares all that there is to a source, and keeps count.
    fn source(&mut self, source: &[u8], seed: u64) {
        let mut rng = Rng::new(seed);
        let accepted = compare(&mut self.desk, source, &mut rng).and_then(|accepted| {
            ask_exported(&mut self.exported, source, &mut rng).map(|()| accepted)
        });
        let group = self.groups.last_mut().expect("a group has begun");
        group.sources += 1;
        match accepted {
            Ok(accepted) => group.accepted += u64::from(accepted),
            Err(difference) => self.differences.add(&group.name, seed, source, &difference),
        }
    }

    /// Prints all counts, and answers whether all is as it should be.
    fn report(&self) -> bool {
        println!("{:50} {:>11} {:>11}", "kind", "sources", "accepted");
        for group in &self.groups {
            let Group {
                name,
                sources,
                accepted,
            } = group;
            println!("{name:50} {sources:>11} {accepted:>11}");
        }
        println!("\n{}", self.desk.tally);
        let calls = self.exported.tally.calls();
        println!("the exported function that assembles: {calls} calls");
        let mut missed = self.desk.tally.missed();
        missed.extend(self.exported.tally.missed_by(Call::Assembling));
        if !missed.is_empty() {
            println!(
                "refusals that no source met: {}; take more seeds",
                missed.join(", ")
            );
        }
        let restored = self.desk.is_restored() && self.exported.is_restored();
        if !restored {
            println!("memory far from what was lent has changed");
        }
        let sources: u64 = self.groups.iter().map(|group| group.sources).sum();
        println!(
            "{sources} sources, {} differences",
            self.differences.count()
        );
        println!("\n{}", self.edits);
        let same = self.differences.count() == 0 && self.edits.is_good();
        same && restored && missed.is_empty()
    }
}

/// Whether the source is accepted by both, with buffers that suffice; or what differs.
fn compare(desk: &mut Desk<Crate>, source: &[u8], rng: &mut Rng) -> Result<bool, Difference> {
    let asked = Asked::new(source);
    let (labels, length) = enough(&asked);
    let answer = desk.assemble(&asked, labels + more(rng), length + more(rng))?;
    if rng.percent(25) {
        desk.assemble(&asked, about(rng, labels), about(rng, length))?;
    }
    let Answer::Accepted { image, .. } = answer else {
        return Ok(false);
    };
    desk.look_into(&image, |length| length + more(rng))?;
    desk.look_into(&damaged(rng, &image), |length| about(rng, length))?;
    Ok(true)
}

/// What differs if the exported function is asked, for one source in eight and every long one: with
/// room for all, and with about as much.
fn ask_exported(desk: &mut Desk<Exported>, source: &[u8], rng: &mut Rng) -> Result<(), Difference> {
    if source.len() < LONG - 1 && rng.below(8) > 0 {
        return Ok(());
    }
    let asked = Asked::new(source);
    let (labels, length) = enough(&asked);
    for enough in [true, false] {
        let (table, room) = match enough {
            true => (labels + more(rng), length + more(rng)),
            false => (about(rng, labels), about(rng, length)),
        };
        desk.assemble(&asked, table, room)
            .map_err(|difference| format!("exported: {difference}"))?;
    }
    Ok(())
}

/// An image with a few changes, cut off, or not even with the right beginning.
fn damaged(rng: &mut Rng, image: &[u8]) -> Vec<u8> {
    let mut damaged = gen::damaged_image(rng, image);
    match rng.below(16) {
        0 => damaged.truncate(rng.below(image.len())),
        1 => damaged[rng.below(8)] ^= 1 << rng.below(8),
        _ => {}
    }
    damaged
}

/// Nothing, a line repeated at the end, one more instruction whose number may not fit, or a byte changed.
fn spoil(rng: &mut Rng, source: &mut Vec<u8>) {
    match rng.below(4) {
        0 => {
            let lines: Vec<&[u8]> = source.split(|byte| *byte == b'\n').collect();
            let line = rng.pick(&lines).to_vec();
            source.push(b'\n');
            source.extend(line);
        }
        1 => {
            let at = rng.below(source.len());
            source[at] = rng.below(128) as u8;
        }
        2 => {
            let ends = (0..source.len()).filter(|at| source[*at] == b'\n');
            let starts: Vec<usize> = [0].into_iter().chain(ends.map(|at| at + 1)).collect();
            let at = rng.pick(&starts);
            source.splice(at..at, gen::numbered_line(rng));
        }
        _ => {}
    }
}

/// This many instructions, among them some labels, and behind them a last line.
fn many_words(words: usize, last: &str) -> Vec<u8> {
    let mut rng = Rng::new(words as u64);
    let mut source = String::new();
    for number in 0..words {
        source += rng.pick(&["ecall\n", "\nebreak\n", ".text\nEcall#\n"]);
        if number % 5000 == 7 {
            source += &format!("l{number}:\n");
        }
    }
    (source + last).into_bytes()
}
