//! Labels as jump targets: what the oracle answers, and that it would notice a wrong distance.

use oracle::gen::{source, Kind};
use oracle::{answer, answer_within, model, Answer, Targeted};

/// Number, line and count of labels of a refusal whose two lines are the same; or 0 and the counts of
/// words and labels.
fn told(source: &str) -> (u32, usize, usize) {
    match answer(source.as_bytes()) {
        Answer::Accepted { words, labels, .. } => (0, words, labels.len()),
        Answer::Refused {
            number,
            rust_line,
            true_line,
            labels,
            needed,
        } => {
            assert_eq!((rust_line, needed), (true_line, 0), "{source:?}");
            (number, true_line, labels.len())
        }
    }
}

fn words(source: &str) -> Vec<u32> {
    let Answer::Accepted { image, .. } = answer(source.as_bytes()) else {
        panic!("{source:?} is refused");
    };
    let words = image[32..].chunks(4);
    words
        .map(|word| u32::from_le_bytes(word.try_into().unwrap()))
        .collect()
}

/// The spellings of a source's targets.
fn spelled(source: &str) -> Vec<&str> {
    let targeted = Targeted::new(source);
    let targets = targeted.targets().iter();
    targets.map(|target| &source[target.span.clone()]).collect()
}

#[test]
fn a_target_is_the_last_operand_of_seven_mnemonics() {
    for (source, targets) in [
        ("x: jal r1, x", vec!["x"]),
        (
            "\n\x0b JAL r1,end_1# x\nbeq r1 , r2 , Loop\t\r",
            vec!["end_1", "Loop"],
        ),
        ("bogus\nbgeu r1, x, y", vec!["y"]),
        ("jal r1, r2", vec![]),
        ("jal r1, a5", vec![]),
        ("jal r1, .x", vec![]),
        ("jal r1, 7", vec![]),
        ("jal x", vec![]),
        ("jal r1, x, x", vec![]),
        ("jal r1, x $", vec![]),
        ("jal r1 5x", vec![]),
        (".jal r1, x", vec![]),
        ("x: .text r1, x", vec![]),
        ("jalr r1, r2, x", vec![]),
        ("addi r1, r2, x", vec![]),
        ("lw r1, x(r2)", vec![]),
        ("# jal r1, x", vec![]),
    ] {
        assert_eq!(spelled(source), targets, "{source:?}");
    }
}

#[test]
fn nothing_moves_where_numbers_stand_for_targets() {
    let source = "jal r1, loop # loop\nloop: beq r1, r2, x\r\nx:";
    let lines = "jal r1, 0    # loop\nloop: beq r1, r2, 0\r\nx:";
    let targeted = Targeted::new(source);
    assert_eq!(targeted.lines(), lines);
    let rewritten = "jal r1, 4 # loop\nloop: beq r1, r2, -65536\r\nx:";
    assert_eq!(targeted.rewritten(&[4, -65_536]), rewritten);
}

#[test]
fn distances_are_in_bytes_from_the_instruction_itself() {
    assert_eq!(words("x: jal r0, x"), [0x0000_0048]);
    assert_eq!(words("jal r0, x\nx:"), [0x0000_2048]);
    assert_eq!(words("x: ecall\njal r0, x"), [0x50, 0xFFFF_E048]);
    assert_eq!(
        words("beq r1, r2, end\nadd r1, r2, r3\nend:"),
        [0x0004_10C0, 0x0001_9080]
    );
}

#[test]
fn the_first_line_decides_behind_the_last_one() {
    assert_eq!(told("jal r1, x"), (33, 1, 0));
    assert_eq!(told("a: jal r1, a\nbne r1, r2, A\njal r0, b"), (33, 2, 1));
    assert_eq!(told("jal r1, x\nfoo r1"), (15, 2, 0));
    assert_eq!(told("jal r1, x\na:\na:"), (4, 3, 1));
    let far = "ecall\n".repeat(16_384);
    assert_eq!(
        told(&format!("beq r1, r2, e\njal r1, x\n{far}e:")),
        (34, 1, 1)
    );
    assert_eq!(
        told(&format!("jal r1, x\nbeq r1, r2, e\n{far}e:")),
        (33, 1, 1)
    );
}

#[test]
fn a_branch_has_17_bits_and_jal_reaches_everything() {
    let ahead = |words| format!("bge r1, r2, e\n{}e:", "ecall\n".repeat(words));
    assert_eq!(told(&ahead(16_382)), (0, 16_383, 1));
    assert_eq!(told(&ahead(16_383)), (34, 1, 1));
    let back = |words, jump: &str| format!("e:\n{}{jump}", "ecall\n".repeat(words));
    assert_eq!(told(&back(16_384, "bge r1, r2, e")), (0, 16_385, 1));
    assert_eq!(told(&back(16_385, "bge r1, r2, e")), (34, 16_387, 1));
    assert_eq!(told(&back(32_767, "jal r1, e")), (0, 32_768, 1));
}

/// 5 and 22 come before 33 and 34, and these before 23.
#[test]
fn the_added_limits_keep_their_order() {
    let number = |source: &str, table, room| match answer_within(source.as_bytes(), table, room) {
        Answer::Accepted { .. } => 0,
        Answer::Refused { number, .. } => number,
    };
    assert_eq!(number("jal r1, x\ny:", 0, 0), 5);
    assert_eq!(number("jal r1, x\ny:", 1, 0), 33);
    assert_eq!(number("jal r1, y\ny:", 1, 35), 23);
    assert_eq!(number("jal r1, y\ny:", 1, 36), 0);
    let many = "ecall\n".repeat(32_768);
    assert_eq!(number(&format!("jal r1, x\n{many}"), 0, 0), 22);
    assert_eq!(number(&format!("y:\nbeq r1, r2, y\n{many}"), 1, 0), 22);
}

/// The listing of each accepted source's image has the distance at each instruction that names a label:
/// counted here by lines alone.
#[test]
fn the_image_has_the_distances() {
    let mut targets = 0;
    for seed in 0..2000 {
        let bytes = source(Kind::Target, seed);
        let text = std::str::from_utf8(&bytes).unwrap();
        let Answer::Accepted { image, labels, .. } = answer(&bytes) else {
            continue;
        };
        let address = |name: &str| {
            let mut found = labels.iter();
            let label = found.find(|it| &text[it.start..it.start + it.length] == name);
            label.expect("an accepted source has it").address as i64
        };
        let listing = model::list(&image, usize::MAX).unwrap();
        let listed: Vec<&str> = listing.lines().skip(3).collect();
        for target in Targeted::new(text).targets() {
            let above = text.lines().take(target.line - 1);
            let words = above.filter(|line| has_instruction(line)).count();
            let distance = address(&text[target.span.clone()]) - (0x1000 + 4 * words as i64);
            assert!(listed[words].ends_with(&format!(", {distance}")), "{text}");
            targets += 1;
        }
    }
    assert!(targets > 2000, "only {targets} targets");
}

/// Whether a line of an accepted source of that kind has an instruction.
fn has_instruction(line: &str) -> bool {
    let line = line.split('#').next().unwrap();
    let behind = line.split_once(':').map_or(line, |(_, behind)| behind);
    !behind.trim().is_empty()
}

/// A distance that is off by a word, or counted the wrong way round, gives another image.
#[test]
fn a_wrong_distance_is_noticed() {
    let mut noticed = 0;
    for seed in 0..500 {
        let bytes = source(Kind::Target, seed);
        let targeted = Targeted::new(std::str::from_utf8(&bytes).unwrap());
        let Answer::Accepted { image, .. } = answer(&bytes) else {
            continue;
        };
        let right = distances(&targeted, &image);
        assert_eq!(image_of(&targeted.rewritten(&right)), image);
        for at in 0..right.len() {
            for wrong in [right[at] + 4, right[at] - 4, -right[at]] {
                let mut distances = right.clone();
                distances[at] = wrong;
                let same = image_of(&targeted.rewritten(&distances)) == image;
                assert_eq!(same, wrong == right[at], "seed {seed}, target {at}");
                noticed += usize::from(!same);
            }
        }
    }
    assert!(noticed > 500, "only {noticed} wrong distances");
}

/// The numbers that the listing of an image has for a source's targets.
fn distances(targeted: &Targeted, image: &[u8]) -> Vec<i64> {
    let listing = model::list(image, usize::MAX).unwrap();
    let listed: Vec<&str> = listing.lines().skip(3).collect();
    let lines: Vec<&str> = targeted.lines().lines().collect();
    let number = |line: usize| {
        let words = lines[..line - 1].iter().filter(|it| has_instruction(it));
        let (_, number) = listed[words.count()].rsplit_once(' ').unwrap();
        number.parse().unwrap()
    };
    let targets = targeted.targets().iter();
    targets.map(|target| number(target.line)).collect()
}

fn image_of(source: &str) -> Vec<u8> {
    match answer(source.as_bytes()) {
        Answer::Accepted { image, .. } => image,
        refused => panic!("{source:?}: {refused:?}"),
    }
}
