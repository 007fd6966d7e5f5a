//! Numbers that do not fit: what the oracle answers, and that it would notice another answer.

use oracle::isa::{Form, Place, Row, ROWS};
use oracle::{answer, answer_within, Answer};

/// What is told of a source: the word of its one instruction, its first setting, or its refusal with both
/// lines and the count of labels.
#[derive(Clone, Copy, Debug, PartialEq, Eq)]
enum Told {
    Word(u32),
    Setting(u8),
    Refused(u32, usize, usize, usize),
}
use Told::{Refused, Setting, Word};

fn told(source: &str) -> Told {
    match answer(source.as_bytes()) {
        Answer::Accepted { image, words, .. } if words > 0 => {
            assert_eq!(words, 1, "{source:?}");
            Word(u32::from_le_bytes(image[32..].try_into().unwrap()))
        }
        Answer::Accepted { settings, .. } => Setting(settings.limb_bits),
        Answer::Refused {
            number,
            rust_line,
            true_line,
            labels,
            needed,
        } => {
            assert_eq!(needed, 0, "{source:?}");
            Refused(number, rust_line, true_line, labels.len())
        }
    }
}

/// A refusal of the first line, with no label.
const fn refused(number: u32) -> Told {
    let rust_line = match number {
        3 | 8 | 18 => 0,
        _ => 1,
    };
    Refused(number, rust_line, 1, 0)
}

#[test]
fn numbers_fit_or_are_refused() {
    for (source, expected) in [
        ("addi r1, r0, 65535", Word(0x7FFF_8088)),
        ("addi r1, r0, 65536", refused(35)),
        ("addi r1, r0, -65536", Word(0x8000_0088)),
        ("addi r1, r0, -65537", refused(35)),
        ("addi r1, r0, 0x1FFFF", Word(0xFFFF_8088)),
        ("addi r1, r0, 0x20000", refused(35)),
        ("jal r1, 0x1FFFFE", Word(0xFFFF_F0C8)),
        ("jal r1, 2097150", refused(35)),
        ("jal r1, -1048576", Word(0x8000_00C8)),
        ("slli r1, r2, -0", Word(0x0000_109B)),
        ("slli r1, r2, -1", refused(35)),
        ("slli r1, r2, 0x100", refused(35)),
        ("slli r1, r2, 300", refused(35)),
        ("beq r1, r2, 131072", refused(35)),
        (".config limb_bits 276", refused(35)),
        (".config foo 256", refused(35)),
        (".config foo 255", refused(9)),
        (".config r1 256", refused(7)),
        (".config limb_bits -1", refused(35)),
        (".config limb_bits 24\n.config limb_bits 0x14", Setting(20)),
        (".config limb_bits x", refused(8)),
        ("lw r1, 70000, r2)", refused(35)),
        ("lw r1, 70000", refused(16)),
        ("addi r1, r0, 9223372036854775808", refused(3)),
        ("addi r1, r0, -9223372036854775808", refused(35)),
        ("addi a5, r0, 70000", refused(18)),
        ("x: addi r1, r0, 70000", Refused(35, 1, 1, 1)),
    ] {
        assert_eq!(told(source), expected, "{source:?}");
    }
}

#[test]
fn what_stands_above_or_to_the_left_decides() {
    for (source, expected) in [
        ("addi r1, x, 70000", refused(17)),
        ("addi x, r0, 70000", refused(17)),
        ("addi r1 ( r0, 70000", refused(19)),
        ("addi r1, r0, 70000 $", refused(3)),
        ("lbu x a0-65537(r14)", refused(17)),
        ("sw r1, 70000(a5)", refused(35)),
        ("sw a5, 70000(r1)", refused(18)),
        (".config limb_bits 256 1", refused(6)),
        (".config , 256", refused(7)),
        ("x:\nx: addi r1, r0, 70000", Refused(4, 2, 2, 1)),
        ("bogus\naddi r1, r0, 70000", refused(15)),
        ("addi r1, r0, 70000\nbogus", refused(35)),
        ("\n# c\na: jal r1, 1048576 # c\nb:", Refused(35, 3, 3, 1)),
        ("jal r1, x\naddi r1, r2, 70000\nx:", Refused(35, 2, 2, 0)),
        ("x: jal r1, x\ny: jal r1, 1048576", Refused(35, 2, 2, 2)),
        ("jal r1, nope\naddi r1, r0, 65536", Refused(35, 2, 2, 0)),
    ] {
        assert_eq!(told(source), expected, "{source:?}");
    }
}

#[test]
fn where_no_number_is_looked_at_it_may_be_any() {
    for source in [
        ".text 70000, -65537, 0x20000",
        ".Config limb_bits 256",
        "# addi r1, r0, 70000",
        "70000x:",
    ] {
        let answer = told(source);
        assert_ne!(answer, refused(35), "{source:?}");
    }
}

/// 5 and 22 come before 35 where they are met on a line above, 5 on its own line too; 23 after it.
#[test]
fn the_added_limits_keep_their_order() {
    let number = |source: &str, table, room| match answer_within(source.as_bytes(), table, room) {
        Answer::Accepted { .. } => 0,
        Answer::Refused { number, .. } => number,
    };
    assert_eq!(number("x: addi r1, r0, 65536", 0, 0), 5);
    assert_eq!(number("x: addi r1, r0, 65536", 1, 0), 35);
    assert_eq!(number("addi r1, r0, 65536\nx:", 0, 0), 35);
    assert_eq!(number("addi r1, r0, 65535", 0, 35), 23);
    assert_eq!(number("addi r1, r0, 65535", 0, 36), 0);
    let many = "ecall\n".repeat(32_768);
    assert_eq!(number(&format!("{many}addi r1, r0, 65536"), 0, 0), 35);
    assert_eq!(number(&format!("{many}addi r1, r0, 65535"), 0, 0), 22);
    assert_eq!(
        number(&format!("{many}ecall\naddi r1, r0, 65536"), 0, 0),
        22
    );
    assert_eq!(number(&format!("{many}.config limb_bits 256"), 0, 0), 35);
}

/// What the numbers of a form may be: decimal ones from the least to the most, and patterns up to the
/// highest.
#[derive(Clone, Copy)]
struct Ends {
    least: i64,
    most: i64,
    highest: i64,
}

/// As document 02 has them.
fn ends(form: Form) -> Option<Ends> {
    let (least, most, highest) = match form {
        Form::Registers | Form::Bare => return None,
        Form::Shift => (0, 255, 255),
        Form::Jump => (-1_048_576, 1_048_575, 0x1F_FFFF),
        _ => (-65_536, 65_535, 0x1_FFFF),
    };
    Some(Ends {
        least,
        most,
        highest,
    })
}

/// An instruction with a number, and whether that fits.
struct Numbered {
    line: String,
    form: Form,
    number: i64,
    is_pattern: bool,
}

impl Numbered {
    fn fits(&self, ends: Ends) -> bool {
        match self.is_pattern {
            true => self.number <= ends.highest,
            false => (ends.least..=ends.most).contains(&self.number),
        }
    }
}

/// Each mnemonic with numbers about all ends, and about 0, in each base.
fn numbered() -> Vec<Numbered> {
    let mut all = Vec::new();
    for row in ROWS.into_iter().filter(|row| ends(row.form).is_some()) {
        for middle in [
            -1i64 << 20,
            -1 << 16,
            0,
            1 << 7,
            1 << 8,
            1 << 16,
            1 << 17,
            1 << 20,
            1 << 21,
        ] {
            for number in middle - 2..=middle + 2 {
                let mut spelled = vec![(number.to_string(), false)];
                if number >= 0 {
                    let patterns = [format!("0x{number:x}"), format!("0b00{number:b}")];
                    spelled.extend(patterns.map(|text| (text, true)));
                }
                all.extend(spelled.into_iter().map(|(text, is_pattern)| Numbered {
                    line: good_line(&row, &text),
                    form: row.form,
                    number,
                    is_pattern,
                }));
            }
        }
    }
    all
}

/// An instruction whose number is the only token that may be wrong.
fn good_line(row: &Row, number: &str) -> String {
    let token = |place: &Place| match place {
        Place::Register => "r9",
        Place::Number => number,
        Place::Mark(mark) => mark,
    };
    let operands: Vec<&str> = row.form.places().iter().map(token).collect();
    format!("{} {}", row.mnemonic, operands.join(" "))
}

fn is_out_of_range(line: &str) -> bool {
    match told(line) {
        Word(_) => false,
        other => {
            assert_eq!(other, refused(35), "{line}");
            true
        }
    }
}

#[test]
fn every_mnemonic_has_the_range_of_its_form() {
    for it in numbered() {
        let ends = ends(it.form).unwrap();
        assert_eq!(is_out_of_range(&it.line), !it.fits(ends), "{}", it.line);
    }
}

/// Ranges that are wrong in one thing, by what is wrong.
#[rustfmt::skip]
const WRONG_RANGES: [(&str, fn(Form, Ends) -> Ends); 8] = [
    ("the most is refused", |_, ends| Ends { most: ends.most - 1, ..ends }),
    ("one more is taken", |_, ends| Ends { most: ends.most + 1, ..ends }),
    ("the least is refused", |_, ends| Ends { least: ends.least + 1, ..ends }),
    ("one less is taken", |_, ends| Ends { least: ends.least - 1, ..ends }),
    ("patterns are tested as decimals", |_, ends| Ends { highest: ends.most, ..ends }),
    ("decimals are tested as patterns", |_, ends| Ends { most: ends.highest, ..ends }),
    ("shifts are signed", |form, ends| match form {
        Form::Shift => Ends { least: -128, most: 127, ..ends },
        _ => ends,
    }),
    ("jal has 17 bits", |form, ends| match form {
        Form::Jump => Ends { least: -65_536, most: 65_535, highest: 0x1_FFFF },
        _ => ends,
    }),
];

#[test]
fn a_wrong_range_is_noticed() {
    let all = numbered();
    for (what, wrong) in WRONG_RANGES {
        let fits = |it: &Numbered| it.fits(wrong(it.form, ends(it.form).unwrap()));
        let noticed = all.iter().any(|it| is_out_of_range(&it.line) == fits(it));
        assert!(noticed, "{what}");
    }
}

/// "A setting must be 0..255, seen before its key is looked up".
#[test]
fn settings_are_in_their_range_whatever_the_key() {
    for number in (-300..=-250).chain(-3..=3).chain(250..=300) {
        let mut spelled = vec![number.to_string(), format!("{number:05}")];
        if number >= 0 {
            spelled.extend([format!("0x{number:x}"), format!("0b{number:b}")]);
        }
        let expected = if (0..=255).contains(&number) { 9 } else { 35 };
        for number in spelled {
            let line = format!(".config bogus {number}");
            assert_eq!(told(&line), refused(expected), "{line}");
        }
    }
}

/// A line, and for each of its operand tokens the refusal that it is for, or 0.
type Line = (String, Vec<u32>);

/// The lines of an instruction with each operand token good or wrong, in all combinations.
fn lines(row: &Row) -> Vec<Line> {
    let mut lines = vec![(row.mnemonic.to_string(), Vec::new())];
    for place in row.form.places() {
        let tokens: &[(&str, u32)] = match place {
            Place::Register => &[("r1", 0), ("x", 17), ("a5", 18), ("70000000", 17)],
            Place::Number => &[("7", 0), ("70000000", 35), ("0x200000", 35), ("r1", 8)],
            Place::Mark(",") => &[(",", 0), ("(", 19)],
            Place::Mark("(") => &[("(", 0), (",", 20)],
            Place::Mark(mark) => &[(*mark, 0), ("x", 21)],
        };
        let longer = |(line, faults): &Line| {
            let longer = |(token, fault): &(&str, u32)| {
                let faults = [&faults[..], &[*fault]].concat();
                (format!("{line} {token}"), faults)
            };
            tokens.iter().map(longer).collect::<Vec<Line>>()
        };
        lines = lines.iter().flat_map(longer).collect();
    }
    lines
}

/// The lines of one mnemonic of each form that has a number.
fn all_lines() -> Vec<Line> {
    let examples = ["ori", "srli", "lh", "sd", "blt", "jal", "jalr"];
    let rows = ROWS.iter().filter(|row| examples.contains(&row.mnemonic));
    rows.flat_map(lines).collect()
}

fn number_of(line: &str) -> u32 {
    match told(line) {
        Refused(number, ..) => number,
        _ => 0,
    }
}

fn first(faults: impl IntoIterator<Item = u32>) -> u32 {
    faults.into_iter().find(|fault| *fault > 0).unwrap_or(0)
}

#[test]
fn operands_are_looked_at_from_left_to_right() {
    let lines = all_lines();
    assert!(lines.len() > 1500, "only {} lines", lines.len());
    for (line, faults) in lines {
        assert_eq!(number_of(&line), first(faults), "{line}");
    }
}

/// What would be answered of a line in a wrong order, and a line that tells it.
type Order = (fn(&[u32]) -> u32, &'static str);

const WRONG_ORDERS: [Order; 3] = [
    // The number before what stands to its left: 35 where 17 is right.
    (
        |faults| {
            first(
                [35].into_iter()
                    .filter(|it| faults.contains(it))
                    .chain(faults.iter().copied()),
            )
        },
        "ori r1 , x , 70000000",
    ),
    // The number after what stands to its right.
    (
        |faults| {
            let others = faults.iter().copied().filter(|it| *it != 35);
            first(others.chain(faults.iter().copied()))
        },
        "lh r1 , 70000000 , r1 )",
    ),
    // All numbers taken.
    (
        |faults| first(faults.iter().copied().filter(|it| *it != 35)),
        "jal r1 , 0x200000",
    ),
];

#[test]
fn a_wrong_order_is_noticed() {
    let lines = all_lines();
    for (wrong, telling) in WRONG_ORDERS {
        let (line, faults) = lines.iter().find(|(line, _)| line == telling).unwrap();
        assert_ne!(number_of(line), wrong(faults), "{line}");
    }
    assert_eq!(told("addi r1, x, 70000"), refused(17));
}
