//! The lists: made again, replayed, and looked through for what they must cover.

use std::collections::{BTreeMap, BTreeSet};

use oracle::falsified::{self, Falsified};
use oracle::isa::ROWS;
use oracle::list::{answer_lines, image_lines, read, read_image, Record, USUAL_TABLE};
use oracle::{answer, answer_within, model, token_list, vector_list, word_list};

const BY_HAND: &str = include_str!("../lists/by_hand.txt");
const VECTORS: &str = include_str!("../../crates/test_vectors/stdin");
const TOKENS: &str = include_str!("../../crates/test_tokens/stdin");
const WORDS: &str = include_str!("../../crates/test_words/stdin");

/// The lists without their falsified records.
fn true_vectors() -> &'static str {
    falsified::VECTORS.true_part(VECTORS)
}

fn true_tokens() -> &'static str {
    falsified::TOKENS.true_part(TOKENS)
}

#[test]
fn the_made_lists_are_made_again() {
    // Not `assert_eq`, which would print both files.
    assert!(
        vector_list() == VECTORS,
        "crates/test_vectors/stdin is not what make-list writes"
    );
    assert!(
        token_list() == TOKENS,
        "crates/test_tokens/stdin is not what make-list writes"
    );
    assert!(
        word_list() == WORDS,
        "crates/test_words/stdin is not what make-list writes"
    );
}

/// What a program has to write of a list: just the falsified records differ, and they are no others.
fn notices(list: &str, falsified: &Falsified, written: &str) {
    let all = list.split("\n\n").count() - 1;
    let honest: Vec<&str> = falsified.true_part(list).split("\n\n").skip(1).collect();
    let numbers: Vec<usize> = written
        .lines()
        .map_while(|line| line.strip_prefix("differs: record ")?.parse().ok())
        .collect();
    assert!(numbers.into_iter().eq(honest.len() + 1..=all));
    assert!(all > honest.len() + 10, "only {all} records");
    for record in falsified.records(list).split("\n\n") {
        assert!(
            !honest.iter().any(|it| it.trim_end() == record.trim()),
            "{record}"
        );
    }
}

#[test]
fn the_programs_notice_the_falsified_records_and_no_others() {
    notices(
        VECTORS,
        &falsified::VECTORS,
        include_str!("../../crates/test_vectors/stdout"),
    );
    notices(
        TOKENS,
        &falsified::TOKENS,
        include_str!("../../crates/test_tokens/stdout"),
    );
    notices(
        WORDS,
        &falsified::WORDS,
        include_str!("../../crates/test_words/stdout"),
    );
}

/// The records of images as they stand in the list; only they say how long a text buffer is.
fn images() -> impl Iterator<Item = &'static str> {
    let records = true_vectors().split("\n\n").skip(1);
    records.filter(|record| record.lines().any(|line| line.starts_with("n ")))
}

/// The records of sources, those by hand first.
fn sources() -> Vec<Record> {
    let mut records = read(true_vectors());
    records.truncate(records.len() - images().count());
    records
}

/// The records of made sources.
fn made_sources() -> Vec<Record> {
    sources().split_off(read(BY_HAND).len())
}

#[test]
fn every_record_is_answered_again() {
    for record in sources() {
        let table = record.table.unwrap_or(USUAL_TABLE);
        let room = record.room.unwrap_or(usize::MAX);
        let lines = answer_lines(&answer_within(&record.source, table, room));
        let start = String::from_utf8_lossy(&record.source[..record.source.len().min(60)]);
        assert_eq!(
            record.answer, lines,
            "table {table}, room {room}, source {start:?}"
        );
    }
}

/// How many records have each refusal number; accepted ones stand under 0.
fn counts(records: &[Record]) -> BTreeMap<u32, usize> {
    let mut counts = BTreeMap::new();
    for record in records {
        let mut words = record.answer[0].split(' ');
        let number = match words.next() {
            Some("a") => 0,
            _ => words.next().unwrap().parse().unwrap(),
        };
        *counts.entry(number).or_default() += 1;
    }
    counts
}

#[test]
fn the_list_of_sources_covers_all_that_the_rust_refuses() {
    let records = made_sources();
    assert!(records.len() >= 3000, "only {} sources", records.len());
    // What the program `vectors` has room for.
    assert!(VECTORS.len() < 786_432, "{} bytes", VECTORS.len());
    let sources: BTreeSet<_> = records.iter().map(|record| &record.source).collect();
    assert_eq!(sources.len(), records.len(), "a source stands twice");
    let found: Vec<u32> = counts(&records).into_keys().collect();
    let wanted = [0, 3, 4].into_iter().chain(6..=21).chain(33..=35);
    let wanted: Vec<u32> = wanted.collect();
    assert_eq!(found, wanted);
}

#[test]
fn the_list_by_hand_covers_the_added_limits_targets_and_ranges() {
    let counts = counts(&read(BY_HAND));
    for (number, least) in [
        (1, 10),
        (2, 10),
        (5, 10),
        (22, 10),
        (23, 10),
        (33, 6),
        (34, 5),
        (35, 20),
    ] {
        assert!(
            counts[&number] >= least,
            "{number} stands only {} times",
            counts[&number]
        );
    }
}

#[test]
fn every_mnemonic_is_accepted_with_distinct_registers() {
    let mut seen = BTreeSet::new();
    for record in made_sources() {
        // Behind the header there is one word.
        let word = match &record.answer[..] {
            [counts, image] if counts.starts_with("a 1 0 ") => &image[2 + 64..],
            _ => continue,
        };
        let word = u32::from_str_radix(word, 16).unwrap().swap_bytes();
        let fields = [(word >> 7) & 15, (word >> 11) & 15, (word >> 15) & 15];
        if fields[0] != fields[1] && fields[1] != fields[2] && fields[0] != fields[2]
            || word & 0x7E == 0x50
        {
            seen.insert(word & 0x7F);
        }
    }
    assert!(seen.into_iter().eq(ROWS.iter().map(|row| row.opcode)));
}

#[test]
fn the_list_of_images_covers_opening_and_listing() {
    let numbers = |tag: &str| -> BTreeSet<u32> {
        let lines = images().flat_map(str::lines);
        lines
            .filter_map(|line| line.strip_prefix(tag))
            .map(|line| line.split(' ').next().unwrap().parse().unwrap())
            .collect()
    };
    let opening: BTreeSet<u32> = (10..=13).chain(24..=28).collect();
    let listing: BTreeSet<u32> = opening.iter().copied().chain(29..=32).collect();
    assert_eq!(numbers("q "), opening);
    assert_eq!(numbers("z "), listing);
    assert!(images().count() >= 400, "only {} images", images().count());
    let texts: String = images().collect();
    for row in ROWS {
        let line = format!("\ns {}", row.mnemonic);
        assert!(texts.contains(&(line.clone() + " ")) || texts.contains(&(line + "\\0a")));
    }
}

/// The reference takes each listing back to the image that was listed.
#[test]
fn listings_assemble_to_their_images() {
    let mut listed = 0;
    for record in images() {
        let image = read_image(record.lines());
        let Ok(text) = model::list(&image, usize::MAX) else {
            continue;
        };
        let lines = answer_lines(&answer(text.as_bytes()));
        assert_eq!(lines[1..], image_lines(&image));
        listed += 1;
    }
    assert!(listed > 100, "only {listed} images are listed");
}

#[test]
fn the_list_of_lines_covers_every_kind() {
    let records = read(true_tokens());
    assert!(records.len() >= 1500, "only {} lines", records.len());
    // What the program `tokens` has room for.
    assert!(TOKENS.len() < 131_072, "{} bytes", TOKENS.len());
    let mut lines = BTreeSet::new();
    for record in &records {
        assert!(record.source.len() < 509 && !record.source.contains(&b'\n'));
        assert!(lines.insert(&record.source), "a line stands twice");
    }
    let kinds: BTreeSet<_> = tokens(&records).map(|(_, kind, ..)| kind).collect();
    assert!(kinds.into_iter().eq("(),:bdhimnr".bytes()));
}

/// A line as a source is refused by 3 exactly where the list says that it is bad.
#[test]
fn bad_lines_are_those_that_the_reference_refuses() {
    for record in read(true_tokens()) {
        let lines = answer_lines(&answer(&record.source));
        assert_eq!(record.answer == ["b"], lines[0].starts_with("r 3 "));
    }
}

/// The places count from the line's first byte, and the spelling there is of the token's kind.
#[test]
fn tokens_stand_where_the_list_says() {
    for (line, kind, start, length) in tokens(&read(true_tokens())) {
        let spelling = &line[start..start + length];
        assert!(match kind {
            b'i' | b'r' => spelling[0].is_ascii_alphabetic() || spelling[0] == b'_',
            b'n' => spelling.iter().all(u8::is_ascii_digit),
            b'm' => spelling[0] == b'-',
            b'h' => spelling.starts_with(b"0x"),
            b'b' => spelling.starts_with(b"0b"),
            b'd' => spelling[0] == b'.',
            mark => spelling == [mark],
        });
    }
}

/// The tokens of a list of lines: the line, and the token's kind, start and length.
fn tokens(records: &[Record]) -> impl Iterator<Item = (&[u8], u8, usize, usize)> {
    records.iter().flat_map(|record| {
        let lines = record.answer.iter();
        lines.filter_map(|line| {
            let mut words = line.strip_prefix("k ")?.split(' ');
            let kind = words.next()?.as_bytes()[0];
            let mut number = || words.next()?.parse().ok();
            Some((&record.source[..], kind, number()?, number()?))
        })
    })
}
