//! Times the library and the Rust reference on the same sources, in one process, and the library's
//! listing. Prints two tables in Markdown.
//!
//! Each row takes the same amount of text or words, cut into different sources or images of its
//! length, so that short ones are not learned by heart. A time is that of the best of several runs.
//! Buffers are not cleared between calls. The reference knows no labels as jump targets: it is asked
//! with 0 and blanks in their places.

use std::hint::black_box;
use std::time::{Duration, Instant};

use oracle::gen::Rng;
use oracle::model::HEADER;
use oracle::Targeted;
use scale::desk::{MOST_IMAGE, MOST_LABELS, MOST_TEXT};
use scale::large::{self, Kind};
use zkasm::Label;

const KB: usize = 1024;

/// The lengths that are timed: each row stands against the second, and takes as much as the last.
const SOURCES: [usize; 5] = [KB, 16 * KB, 63 * KB, 256 * KB, 1024 * KB];
const CODE: [usize; 3] = [KB, 16 * KB, 128 * KB];

/// What is lent, once for all calls.
struct Buffers {
    table: Vec<Label>,
    image: Vec<u8>,
    text: Vec<u8>,
}

fn main() {
    let mut buffers = Buffers {
        table: vec![Label::default(); MOST_LABELS],
        image: vec![0; MOST_IMAGE],
        text: vec![0; MOST_TEXT],
    };
    head(&[
        "Source",
        "Length",
        "Library, ns a byte",
        "Rust, ns a byte",
        "Library / Rust",
        "Library against 16 KB",
        "Rust against 16 KB",
    ]);
    for kind in large::KINDS {
        assembling(&mut buffers, &kind);
    }
    println!();
    head(&[
        "Words listed",
        "Length",
        "Library, ns a word",
        "Text, MB a second",
        "Against 16 KB",
    ]);
    listing(&mut buffers, "ordinary instructions", large::instruction);
    listing(&mut buffers, "all ecall", |_| "ecall".to_string());
    listing(&mut buffers, "longest lines", |_| {
        "bltu r15, r15, -65536".to_string()
    });
}

/// A table's head. The last columns are the time a byte, or a word, against that at 16 KB.
fn head(columns: &[&str]) {
    println!("| {} |", columns.join(" | "));
    println!("|---|{}", "---:|".repeat(columns.len() - 1));
}

/// The best time of a call for all inputs, in nanoseconds: of at least three runs, and of as many
/// as a quarter of a second has room for.
fn best<T>(inputs: &[T], mut call: impl FnMut(&T)) -> f64 {
    let begin = Instant::now();
    let mut best = Duration::MAX;
    let mut runs = 0;
    while runs < 3 || begin.elapsed() < Duration::from_millis(250) {
        let start = Instant::now();
        inputs.iter().for_each(|input| call(black_box(input)));
        best = best.min(start.elapsed());
        runs += 1;
    }
    best.as_nanos() as f64
}

/// A row for each length of a kind's sources.
fn assembling(Buffers { table, image, .. }: &mut Buffers, kind: &Kind) {
    let mut lengths = SOURCES.map(|length| length.min(kind.most)).to_vec();
    lengths.dedup();
    let times = |length: usize| {
        let count = SOURCES[SOURCES.len() - 1] / length;
        let source = |seed| kind.source(&mut Rng::new(seed as u64), length);
        let text = |seed| String::from_utf8(source(seed)).expect("it is ASCII");
        let texts: Vec<String> = (0..count).map(text).collect();
        let library = best(&texts, |text| {
            let answer = zkasm::assemble(text.as_bytes(), table, image);
            black_box(answer).expect("it is accepted");
        });
        let lines = |text: &String| Targeted::new(text).lines().to_string();
        let texts: Vec<String> = texts.iter().map(lines).collect();
        let reference = best(&texts, |text| {
            let program = zkir_assembler::assembler::assemble(text);
            black_box(program.expect("it is accepted").to_bytes());
        });
        [library, reference].map(|time| time / (count * length) as f64)
    };
    let times: Vec<[f64; 2]> = lengths.iter().copied().map(times).collect();
    for (length, [library, reference]) in lengths.iter().zip(&times) {
        let (name, length, ratio) = (kind.name, length / KB, library / reference);
        let [ours, theirs] = [library / times[1][0], reference / times[1][1]];
        println!(
            "| {name} | {length} KB | {library:.1} | {reference:.1} | {ratio:.2} | {ours:.2} | {theirs:.2} |"
        );
    }
}

/// A row for each length of code of such instructions.
fn listing(buffers: &mut Buffers, name: &str, instruction: fn(&mut Rng) -> String) {
    let Buffers { table, image, text } = buffers;
    let mut rng = Rng::new(1);
    let mut image_of = |words: usize| {
        let lines: Vec<String> = (0..words).map(|_| instruction(&mut rng)).collect();
        let source = lines.join("\n");
        zkasm::assemble(source.as_bytes(), table, image).expect("it is accepted");
        image[..HEADER + 4 * words].to_vec()
    };
    let times = CODE.map(|length| {
        let count = CODE[2] / length;
        let images: Vec<Vec<u8>> = (0..count).map(|_| image_of(length / 4)).collect();
        let time = best(&images, |image| {
            black_box(zkasm::list(image, text)).expect("it is listed");
        });
        let written = |image: &Vec<u8>| zkasm::list(image, text).expect("it is listed");
        let written: usize = images.iter().map(written).sum();
        (time * 4.0 / CODE[2] as f64, written as f64 * 1000.0 / time)
    });
    for (length, (time, speed)) in CODE.iter().zip(times) {
        let (length, flat) = (length / KB, time / times[1].0);
        println!("| {name} | {length} KB | {time:.1} | {speed:.0} | {flat:.2} |");
    }
}
