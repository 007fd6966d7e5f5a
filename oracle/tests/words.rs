//! The list of instructions and words: looked through for what it must cover, and its texts asked
//! back.

use std::collections::BTreeSet;

use oracle::isa::{Form, Place, ROWS};
use oracle::list::{read, Record};
use oracle::{answer, falsified, Answer};

const WORDS: &str = include_str!("../../crates/test_words/stdin");

/// The records but the falsified ones.
fn records() -> Vec<Record> {
    read(falsified::WORDS.true_part(WORDS))
}

/// What stands in a record's line with this tag.
fn line<'a>(record: &'a Record, tag: &str) -> Option<&'a str> {
    let mut lines = record.answer.iter();
    lines.find_map(|line| line.strip_prefix(tag)?.strip_prefix(' '))
}

fn word(record: &Record) -> Option<u32> {
    line(record, "w").map(|word| u32::from_str_radix(word, 16).unwrap())
}

/// The one word that the reference makes of a source, or why it makes none.
fn word_of(source: &str) -> Result<u32, u32> {
    match answer(source.as_bytes()) {
        Answer::Accepted { image, .. } => Ok(u32::from_le_bytes(image[32..].try_into().unwrap())),
        Answer::Refused { number, .. } => Err(number),
    }
}

#[test]
fn the_program_has_room_for_it() {
    assert!(WORDS.len() < 524_288, "{} bytes", WORDS.len());
    let mut seen = BTreeSet::new();
    for record in records() {
        assert!(record.source.len() < 509 && !record.source.contains(&b'\n'));
        assert!(seen.insert((record.source, record.answer)), "twice");
    }
    assert!(seen.len() >= 4000, "only {} records", seen.len());
}

#[test]
fn every_refusal_of_an_instruction_and_of_a_word_is_met() {
    let numbers: BTreeSet<u32> = records()
        .iter()
        .filter_map(|record| line(record, "r")?.parse().ok())
        .collect();
    assert!(numbers
        .into_iter()
        .eq([8].into_iter().chain(14..=21).chain([30, 31, 35])));
}

#[test]
fn every_mnemonic_is_spelled_in_each_case_and_behind_a_label() {
    let mut spellings = BTreeSet::new();
    for record in records()
        .iter()
        .filter(|record| line(record, "u").is_some())
    {
        let source = std::str::from_utf8(&record.source).unwrap();
        let labelled = line(record, "m") == Some("2");
        let instruction = match labelled {
            true => source.split_once(':').unwrap().1,
            false => source,
        };
        let mut words = instruction
            .trim_start()
            .split(|letter: char| !letter.is_ascii_alphabetic());
        spellings.insert((labelled, words.next().unwrap().to_string()));
    }
    for row in ROWS {
        let (lower, upper) = (row.mnemonic.to_string(), row.mnemonic.to_uppercase());
        for spelling in [&lower, &upper] {
            assert!(spellings.contains(&(false, spelling.clone())), "{spelling}");
        }
        let all = spellings.iter();
        let its: Vec<_> = all.filter(|(_, it)| it.to_lowercase() == lower).collect();
        assert!(its.iter().any(|(labelled, _)| *labelled), "{lower}");
        assert!(
            its.iter().any(|(_, it)| *it != lower && *it != upper),
            "{lower}"
        );
    }
}

#[test]
fn every_register_stands_in_each_place_of_each_form() {
    let mut found = BTreeSet::new();
    for record in records().iter().filter(|record| !record.source.is_empty()) {
        let Some(text) = line(record, "l") else {
            continue;
        };
        let mut words = text.split(|letter: char| !letter.is_ascii_alphanumeric());
        let mnemonic = words.next().unwrap();
        let row = ROWS.iter().find(|row| row.mnemonic == mnemonic).unwrap();
        let registers = words.filter_map(|word| word.strip_prefix('r')?.parse::<u32>().ok());
        for (place, register) in registers.enumerate() {
            found.insert((row.form as u32, place, register));
        }
    }
    for form in ROWS.map(|row| row.form) {
        let places = form.places().iter();
        let registers = places.filter(|place| **place == Place::Register).count();
        for place in 0..registers {
            for register in 0..16 {
                assert!(
                    found.contains(&(form as u32, place, register)),
                    "{form:?}, {place}"
                );
            }
        }
    }
}

/// What a number may be that is written with this mnemonic: the least and the most decimal one, and the
/// highest pattern.
fn ends(form: Form) -> Option<(i64, i64, u64)> {
    match form {
        Form::Registers | Form::Bare => None,
        Form::Shift => Some((0, 255, 0xFF)),
        Form::Jump => Some((-1_048_576, 1_048_575, 0x1F_FFFF)),
        _ => Some((-65_536, 65_535, 0x1_FFFF)),
    }
}

#[test]
fn every_number_is_at_its_ends_and_beyond() {
    let mut answers = BTreeSet::new();
    let records = records();
    for record in &records {
        let source = std::str::from_utf8(&record.source).unwrap();
        answers.insert((source.split(' ').collect::<Vec<_>>(), line(record, "r")));
    }
    for row in ROWS {
        let Some((least, most, pattern)) = ends(row.form) else {
            continue;
        };
        let past = pattern + 1;
        let good = [least.to_string(), most.to_string()];
        let good_patterns = [format!("0x{pattern:x}"), format!("0b{pattern:b}")];
        let bad = [least - 1, most + 1, i64::MIN, i64::MAX].map(|number| number.to_string());
        let bad_patterns = [past, u64::MAX].map(|number| format!("0x{number:x}"));
        let bad = bad.iter().chain(&bad_patterns);
        let numbers = good.iter().chain(&good_patterns).map(|it| (it, None));
        for (number, refused) in numbers.chain(bad.map(|it| (it, Some("35")))) {
            let found = answers.iter().any(|(tokens, answer)| {
                tokens[0] == row.mnemonic && tokens.contains(&number.as_str()) && *answer == refused
            });
            assert!(found, "{} {number}: {refused:?}", row.mnemonic);
        }
    }
}

/// A label that an instruction names is the last token of its line, and the instruction's own number
/// is 0.
#[test]
fn every_target_is_where_the_list_says() {
    let mut mnemonics = BTreeSet::new();
    for record in records() {
        let Some(place) = line(&record, "n") else {
            continue;
        };
        let (start, length) = place.split_once(' ').unwrap();
        let source = std::str::from_utf8(&record.source).unwrap();
        let (front, target) = source.split_at(start.parse().unwrap());
        let (target, behind) = target.split_at(length.parse().unwrap());
        assert!(front.ends_with([',', ' ', '\t']), "{source}");
        assert!(!target.starts_with(|letter: char| letter.is_ascii_digit()));
        assert!(target
            .chars()
            .all(|it| it.is_ascii_alphanumeric() || it == '_'));
        let behind = behind.split('#').next().unwrap();
        assert!(behind.trim().is_empty(), "{source}");
        let text = line(&record, "u").unwrap();
        assert!(text.ends_with(", 0"), "{text}");
        mnemonics.insert(text.split(' ').next().unwrap().to_string());
    }
    assert_eq!(mnemonics.len(), 7);
}

#[test]
fn every_opcode_and_every_bit_stands_in_a_word_alone() {
    let records = records();
    let alone = records.iter().filter(|record| line(record, "m").is_none());
    let words: BTreeSet<u32> = alone.filter_map(word).collect();
    for opcode in 0..128 {
        assert!(words.contains(&opcode) && words.contains(&(opcode | !0x7F)));
    }
    for row in ROWS {
        assert!((7..32).all(|bit| words.contains(&(row.opcode | 1 << bit))));
    }
}

/// The reference takes each text of a word back to the word, and each text as read to its line's
/// word, but for numbers that only Hex and Binary can have.
#[test]
fn texts_assemble_to_their_words() {
    let mut patterns = 0;
    for record in records() {
        if let Some(text) = line(&record, "l") {
            assert_eq!(word_of(text), Ok(word(&record).unwrap()), "{text}");
        }
        match line(&record, "u").map(|text| (text, word_of(text))) {
            Some((text, Err(35))) => {
                let source = String::from_utf8_lossy(&record.source);
                assert!(source.contains("0x") || source.contains("0b"), "{text}");
                patterns += 1;
            }
            Some((text, answer)) => assert_eq!(answer, Ok(word(&record).unwrap()), "{text}"),
            None => {}
        }
    }
    assert!(
        (50..300).contains(&patterns),
        "{patterns} texts with such numbers"
    );
}
