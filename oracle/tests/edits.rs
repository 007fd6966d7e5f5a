//! Sources that differ in one line: what their lines alone tell is what the oracle answers for them.

use oracle::gen::{source, Kind, Rng};
use oracle::{answer, Answer, Edit};

const SEEDS: std::ops::Range<u64> = 0..1500;

/// The pairs drawn from the accepted sources of some kinds.
fn edits() -> Vec<Edit> {
    let mut edits = Vec::new();
    for kind in [Kind::Program, Kind::Target, Kind::Label, Kind::Number] {
        for seed in SEEDS {
            let text = source(kind, seed);
            if matches!(answer(&text), Answer::Accepted { .. }) {
                let text = std::str::from_utf8(&text).unwrap();
                edits.extend(Edit::of(text, &mut Rng::new(seed)));
            }
        }
    }
    edits
}

#[test]
fn one_line_differs_at_most() {
    let (mut others, mut ends) = (0, 0);
    for Edit { sources, .. } in edits() {
        let [one, other] = sources.each_ref().map(|text| text.split('\n'));
        let differ = one.clone().zip(other.clone());
        let differ = differ.filter(|(one, other)| one != other).count();
        assert!(differ < 2, "{sources:?}");
        others += differ;
        let [one, other] = [one, other].map(|lines| lines.collect::<Vec<_>>());
        if one.len() != other.len() {
            // A byte 10 more at the end.
            let common = one.len().min(other.len());
            assert_eq!([&one[common..], &other[common..]].concat(), [""]);
            ends += 1;
        }
    }
    assert!(others > 3000 && ends > 300, "{others}, {ends}");
}

#[test]
fn the_lines_tell_what_is_answered() {
    let (mut all, mut accepted, mut changed, mut named) = (0, 0, 0, 0);
    for edit in edits() {
        all += 1;
        let answers = edit.sources.each_ref().map(|text| answer(text.as_bytes()));
        for (answer, word) in answers.iter().zip(edit.words) {
            let Answer::Accepted {
                image,
                words,
                labels,
                ..
            } = answer
            else {
                continue;
            };
            assert_eq!(
                (*words, labels.len()),
                (edit.instructions, edit.labels),
                "{edit:?}"
            );
            let at = 32 + 4 * edit.above;
            let bytes = image[at..at + 4].try_into().unwrap();
            assert_eq!(word, Some(u32::from_le_bytes(bytes)), "{edit:?}");
        }
        let both = |answer: &Answer| matches!(answer, Answer::Accepted { .. });
        if answers.iter().all(both) {
            accepted += 1;
            changed += usize::from(edit.words[0] != edit.words[1]);
            named += edit.labels.min(1);
        }
    }
    assert!(accepted * 10 > all * 9, "{accepted} of {all}");
    assert!(changed > 2500 && named > 1000, "{changed}, {named}");
}
