//! Sources of any length, as they are usual and as a rival would make them. All are accepted by the
//! library; the reference knows none of the labels that instructions name.

use oracle::gen::Rng;
use oracle::{MOST_SOURCE_BYTES, MOST_WORDS};

/// Sources of one kind.
pub struct Kind {
    pub name: &'static str,
    /// They have at most this many bytes.
    pub most: usize,
    make: fn(&mut Rng, usize) -> Vec<u8>,
}

const fn kind(name: &'static str, make: fn(&mut Rng, usize) -> Vec<u8>) -> Kind {
    Kind {
        name,
        most: MOST_SOURCE_BYTES,
        make,
    }
}

/// Usual ones, and behind them those that are made to be slow.
pub const KINDS: [Kind; 19] = [
    kind("ordinary program", ordinary),
    kind("a label before every instruction", labelled),
    kind("mostly comments", comments),
    kind("a label a line", labels),
    Kind {
        most: MOST_WORDS * ECALL.len(),
        ..kind("all ecall", ecalls)
    },
    kind("a label a line, their numbers falling", falling),
    kind("a label a line, their numbers in no order", in_no_order),
    kind("labels of 240 bytes, alike but for the end", long_labels),
    kind("labels of 16 bytes, alike but for the end", alike_before),
    kind("labels of 16 bytes, alike but for the front", alike_behind),
    kind("labels that are each the front of the next", nested),
    kind("the shortest labels, one a line", shortest),
    kind("one line of tokens", one_line),
    kind("a target on every fourth line", targets),
    kind("the same with numbers", numbers),
    Kind {
        most: MOST_WORDS * JUMP,
        ..kind("forward and backward jumps", jumps)
    },
    kind(
        "32,768 jumps over as many labels as fit",
        jumps_over_shortest,
    ),
    kind(
        "jumps, labels of 16 bytes, alike but for the end",
        jumps_over_alike,
    ),
    kind(
        "jumps, labels of 240 bytes, alike but for the end",
        jumps_over_long,
    ),
];

impl Kind {
    /// A source of exactly this many bytes.
    pub fn source(&self, rng: &mut Rng, bytes: usize) -> Vec<u8> {
        (self.make)(rng, bytes)
    }
}

/// Lines until the next would go beyond `bytes`, and then a comment that fills the rest.
fn filled(bytes: usize, mut line: impl FnMut(usize) -> String) -> Vec<u8> {
    let mut out = Vec::with_capacity(bytes);
    for number in 0.. {
        let next = line(number);
        if out.len() + next.len() > bytes {
            break;
        }
        out.extend_from_slice(next.as_bytes());
    }
    ended(out, bytes)
}

/// A comment fills the rest.
fn ended(mut out: Vec<u8>, bytes: usize) -> Vec<u8> {
    if out.len() < bytes {
        out.push(b'#');
        out.resize(bytes, b'-');
    }
    out
}

/// Blocks of a label and some instructions, indented, with a comment here and there.
fn ordinary(rng: &mut Rng, bytes: usize) -> Vec<u8> {
    filled(bytes, |number| block(rng, number))
}

#[rustfmt::skip]
const REMARKS: [&str; 12] = [
    "sodium per 100 g", "salt = sodium * 2.5", "the next ingredient", "grams to milligrams",
    "one entry is 16 bytes", "all flour in the list", "round to a tenth of a gram", "done?",
    "nothing left to add", "sum so far", "the loaf after baking", "checked against the label",
];

const STEMS: [&str; 6] = ["loop", "next", "done", "add_salt", "weigh", "round_up"];

fn block(rng: &mut Rng, number: usize) -> String {
    let stem = rng.pick(&STEMS);
    let mut text = match rng.below(3) {
        0 => String::new(),
        _ => format!("\n# {}, then {}\n", rng.pick(&REMARKS), rng.pick(&REMARKS)),
    };
    text += &format!("{stem}_{number}:\n");
    for _ in 0..3 + rng.below(9) {
        text += "    ";
        text += &instruction(rng);
        if rng.percent(40) {
            text += &format!("    # {}", rng.pick(&REMARKS));
        }
        text.push('\n');
    }
    text
}

/// A label and an instruction on every line, with a comment here and there.
fn labelled(rng: &mut Rng, bytes: usize) -> Vec<u8> {
    filled(bytes, |number| {
        let stem = rng.pick(&STEMS);
        let mut line = format!("{stem}_{number}: {}", instruction(rng));
        if rng.percent(40) {
            line += &format!("    # {}", rng.pick(&REMARKS));
        }
        line.push('\n');
        line
    })
}

/// An instruction of those that programs mostly have.
pub fn instruction(rng: &mut Rng) -> String {
    const MNEMONICS: [&str; 16] = [
        "add", "sub", "mul", "and", "sltu", "addi", "addi", "addi", "slli", "srli", "lw", "lw",
        "sw", "sw", "bne", "beq",
    ];
    let names = [
        "a0", "a1", "a2", "t0", "t1", "s0", "s1", "sp", "zero", "r1", "r4", "r9", "r10", "r12",
    ];
    let [one, two, three] = [(); 3].map(|()| rng.pick(&names));
    let (small, bytes) = (rng.below(4000), 4 * rng.below(64));
    match rng.pick(&MNEMONICS) {
        _ if rng.percent(4) => "ecall".to_string(),
        _ if rng.percent(4) => format!("jal ra, -{}", 4 * small),
        _ if rng.percent(4) => format!("xori {one}, {two}, 0x{small:x}"),
        it @ ("lw" | "sw") => format!("{it} {one}, {bytes}({two})"),
        it @ ("bne" | "beq") => format!("{it} {one}, {two}, -{bytes}"),
        it @ ("slli" | "srli") => format!("{it} {one}, {two}, {}", small % 32),
        "addi" => format!("addi {one}, {two}, {small}"),
        it => format!("{it} {one}, {two}, {three}"),
    }
}

/// Eight lines of comment for each instruction.
fn comments(rng: &mut Rng, bytes: usize) -> Vec<u8> {
    filled(bytes, |number| match number % 9 {
        8 => format!("    {}\n", instruction(rng)),
        _ => format!(
            "# {}, and what is said of it: {}\n",
            rng.pick(&REMARKS),
            rng.pick(&REMARKS)
        ),
    })
}

fn labels(rng: &mut Rng, bytes: usize) -> Vec<u8> {
    let first = rng.below(1000);
    filled(bytes, |number| format!("label_{}:\n", first + number))
}

const ECALL: &str = "ecall\n";

fn ecalls(_: &mut Rng, bytes: usize) -> Vec<u8> {
    filled(bytes, |_| ECALL.to_string())
}

fn falling(rng: &mut Rng, bytes: usize) -> Vec<u8> {
    let first = 999_999 - rng.below(1000);
    filled(bytes, |number| format!("label_{}:\n", first - number))
}

fn in_no_order(rng: &mut Rng, bytes: usize) -> Vec<u8> {
    let first = rng.below(1000);
    // An odd factor takes each number below 2^20 to another one.
    filled(bytes, |number| {
        format!("label_{}:\n", (first + number) * 472_983 % (1 << 20))
    })
}

fn long_labels(rng: &mut Rng, bytes: usize) -> Vec<u8> {
    let first = rng.below(1000);
    filled(bytes, |number| format!("{}:\n", long_name(first + number)))
}

fn long_name(number: usize) -> String {
    let stem = "salt_of_the_loaf_".repeat(14);
    format!("{}{number:06}", &stem[..234])
}

fn alike_before(rng: &mut Rng, bytes: usize) -> Vec<u8> {
    let first = rng.below(1000);
    filled(bytes, |number| format!("{}:\n", alike_name(first + number)))
}

fn alike_name(number: usize) -> String {
    format!("salt_and_{number:07}")
}

fn alike_behind(rng: &mut Rng, bytes: usize) -> Vec<u8> {
    let first = rng.below(1000);
    filled(bytes, |number| format!("_{:07}_of_salt:\n", first + number))
}

/// `a`, `aa`, `aaa` and so on.
fn nested(_: &mut Rng, bytes: usize) -> Vec<u8> {
    filled(bytes, |number| format!("{}:\n", "a".repeat(number + 1)))
}

/// As many labels as there can be, or nearly: some 200,000 in 1 MB.
fn shortest(_: &mut Rng, bytes: usize) -> Vec<u8> {
    filled(bytes, |number| format!("{}:\n", short_name(number)))
}

/// A name for each number, the shorter ones first. None is a register's.
fn short_name(number: usize) -> String {
    const FIRST: &[u8] = b"BCDEHIJKLMNOPQUVWXY_bcdehijklmnopquvwxy";
    const MORE: &[u8] = b"ABCDEFGHIJKLMNOPQRSTUVWXYZ_abcdefghijklmnopqrstuvwxyz0123456789";
    let mut name = String::from(FIRST[number % FIRST.len()] as char);
    let mut rest = number / FIRST.len();
    while rest > 0 {
        rest -= 1;
        name.push(MORE[rest % MORE.len()] as char);
        rest /= MORE.len();
    }
    name
}

/// A directive does nothing, whatever stands behind it.
fn one_line(rng: &mut Rng, bytes: usize) -> Vec<u8> {
    let tokens = [
        "r1", ",", "0x1f", "salt", "(", "sp", ")", "-40", ".data", ":", "a5",
    ];
    filled(bytes, |number| match number {
        0 => ".text".to_string(),
        _ => format!(" {}", rng.pick(&tokens)),
    })
}

/// Eight lines at a time with a jump forward and one back, each to a label among them.
fn targets(rng: &mut Rng, bytes: usize) -> Vec<u8> {
    filled(bytes, |number| {
        let names = ["done", "again"].map(|stem| format!("{stem}_{number}"));
        loop_to(rng, &names, &names)
    })
}

/// The same with numbers, and blanks behind them, so that their lines are as long.
fn numbers(rng: &mut Rng, bytes: usize) -> Vec<u8> {
    filled(bytes, |number| {
        let names = ["done", "again"].map(|stem| format!("{stem}_{number}"));
        let distances = [12, -28].map(|distance: i32| distance.to_string());
        let padded = [0, 1].map(|at| format!("{:1$}", distances[at], names[at].len()));
        loop_to(rng, &names, &padded)
    })
}

/// Eight lines, most with a comment, whose fourth goes on at the seventh, and whose eighth at the
/// first.
fn loop_to(rng: &mut Rng, names: &[String; 2], targets: &[String; 2]) -> String {
    let mut text = String::new();
    for line in 0..8 {
        text += &match line {
            0 => format!("{}: {}", names[1], instruction(rng)),
            3 => format!("beq a0, zero, {}", targets[0]),
            6 => format!("{}: {}", names[0], instruction(rng)),
            7 => format!("jal zero, {}", targets[1]),
            _ => instruction(rng),
        };
        if rng.percent(70) {
            text += &format!("    # {}", rng.pick(&REMARKS));
        }
        text.push('\n');
    }
    text
}

/// The length of each line of `jumps`.
const JUMP: usize = "l000000: bne a0, a1, l000000\n".len();

/// Sixteen lines at a time that jump to one another, forward and backward.
fn jumps(rng: &mut Rng, bytes: usize) -> Vec<u8> {
    let first = rng.below(1000);
    filled(bytes, |number| {
        let from = first + 16 * number;
        let line = |at: usize| {
            let to = from + (at * 5 + 11) % 16;
            format!("l{:06}: bne a0, a1, l{to:06}\n", from + at)
        };
        (0..16).map(line).collect()
    })
}

fn jumps_over_shortest(rng: &mut Rng, bytes: usize) -> Vec<u8> {
    jumps_over(rng, bytes, short_name)
}

fn jumps_over_alike(rng: &mut Rng, bytes: usize) -> Vec<u8> {
    jumps_over(rng, bytes, alike_name)
}

fn jumps_over_long(rng: &mut Rng, bytes: usize) -> Vec<u8> {
    jumps_over(rng, bytes, long_name)
}

/// Labels, as many as fit, and behind them jumps to them in no order: as many as there may be in 1 MB,
/// but in no more than half of the source.
fn jumps_over(rng: &mut Rng, bytes: usize, name: fn(usize) -> String) -> Vec<u8> {
    let jump = |number| format!("jal r0,{}\n", name(number));
    let longest = jump(MOST_SOURCE_BYTES / 2).len();
    let jumps = (bytes * MOST_WORDS / MOST_SOURCE_BYTES).min(bytes / 2 / longest);
    let mut out = Vec::with_capacity(bytes);
    let mut labels = 0;
    loop {
        let label = format!("{}:\n", name(labels));
        if out.len() + label.len() + jumps * longest > bytes {
            break;
        }
        out.extend_from_slice(label.as_bytes());
        labels += 1;
    }
    if labels > 0 {
        out.extend((0..jumps).flat_map(|_| jump(rng.below(labels)).into_bytes()));
    }
    ended(out, bytes)
}

#[cfg(test)]
mod tests {
    use super::*;
    use oracle::{answer, Answer};

    #[test]
    fn every_source_is_accepted() {
        for kind in KINDS {
            for seed in 0..20 {
                let mut rng = Rng::new(seed);
                let bytes = 100 + rng.below(16_000);
                let answer = answer(&kind.source(&mut rng, bytes));
                assert!(matches!(answer, Answer::Accepted { .. }), "{}", kind.name);
            }
        }
    }
}
