//! What the generator promises.

use oracle::gen::{source, Kind, KINDS};
use oracle::{answer, Answer};

#[test]
fn programs_are_accepted() {
    for seed in 0..2000 {
        let text = source(Kind::Program, seed);
        let answer = answer(&text);
        assert!(
            matches!(answer, Answer::Accepted { .. }),
            "{answer:?} for {:?}",
            String::from_utf8_lossy(&text)
        );
    }
}

/// `answer` itself checks that a source is ASCII and within the limits.
#[test]
fn every_kind_has_accepted_and_refused_sources() {
    for kind in KINDS {
        let answers: Vec<_> = (0..2000).map(|seed| answer(&source(kind, seed))).collect();
        let accepted = |answer: &&Answer| matches!(answer, Answer::Accepted { .. });
        let count = answers.iter().filter(accepted).count();
        assert!(count > 0, "{kind:?}: none accepted");
        assert!(
            count < 2000 || kind == Kind::Program,
            "{kind:?}: none refused"
        );
    }
}

/// Many of the numbers that may not fit do not.
#[test]
fn numbers_fit_or_not() {
    let answers = (0..2000).map(|seed| answer(&source(Kind::Number, seed)));
    let refused = |answer: &Answer| matches!(answer, Answer::Refused { number: 35, .. });
    let count = answers.filter(refused).count();
    assert!((300..1000).contains(&count), "{count} of 2000");
}
