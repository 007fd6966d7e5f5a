//! Sources to ask, each made from a kind and a seed. All are ASCII and within the added limits.

mod edits;
mod kinds;
mod numbers;
mod rng;
mod spelling;
mod targets;

pub use edits::redrawn_line;
pub use kinds::{damaged_image, numbered_line};
pub use numbers::{about_some_end, GOOD_NUMBERS, ODD_NUMBERS};
pub use rng::Rng;

#[derive(Clone, Copy, Debug, PartialEq, Eq)]
pub enum Kind {
    /// A line of one to four tokens of a small alphabet.
    ShortLine,
    /// An accepted program in varied spelling.
    Program,
    /// A program in which one line has a token too many, too few, or wrong.
    NearMiss,
    /// Numbers at the ends of their ranges, at a token's limits and in odd forms, as operands and as
    /// settings.
    Number,
    /// Labels: repeated, alone, before instructions and before other things.
    Label,
    /// `.config` lines, good and bad, one seen against the other.
    Setting,
    /// Other directives.
    Directive,
    /// Lines of more than nine tokens.
    LongLine,
    /// A good line with one byte put in.
    StrayByte,
    /// An accepted program with a few bytes changed.
    Damaged,
    /// Labels, and instructions that name them as targets, also where none may stand.
    Target,
}

pub const KINDS: [Kind; 11] = [
    Kind::ShortLine,
    Kind::Program,
    Kind::NearMiss,
    Kind::Number,
    Kind::Label,
    Kind::Setting,
    Kind::Directive,
    Kind::LongLine,
    Kind::StrayByte,
    Kind::Damaged,
    Kind::Target,
];

/// How many kinds share the small seeds: as many as there were at first.
const FIRST_KINDS: u64 = 10;

/// The source of a kind and a seed.
pub fn source(kind: Kind, seed: u64) -> Vec<u8> {
    // No two pairs of kind and small seed begin alike. Later kinds have seeds far away, so that the
    // first ones give the same sources as before.
    let (round, place) = (kind as u64 / FIRST_KINDS, kind as u64 % FIRST_KINDS);
    let begin = seed.wrapping_mul(FIRST_KINDS).wrapping_add(place);
    let mut rng = Rng::new(begin ^ round << 63);
    match kind {
        Kind::ShortLine => kinds::short_line(&mut rng),
        Kind::Program => kinds::program(&mut rng),
        Kind::NearMiss => kinds::near_miss(&mut rng),
        Kind::Number => kinds::number(&mut rng),
        Kind::Label => kinds::label(&mut rng),
        Kind::Setting => kinds::setting(&mut rng),
        Kind::Directive => kinds::directive(&mut rng),
        Kind::LongLine => kinds::long_line(&mut rng),
        Kind::StrayByte => kinds::stray_byte(&mut rng),
        Kind::Damaged => kinds::damaged(&mut rng),
        Kind::Target => targets::target(&mut rng),
    }
}

/// One token of each sort that a line can tell apart.
#[rustfmt::skip]
pub const ALPHABET: [&str; 24] = [
    "ecall", "jal", "add", "lw", "x", "Add", "r1", "sp", "a5", "R1", "r16", "7",
    "-1", "0x20", "0b1", ".config", ".text", "limb_bits", ",", ":", "(", ")", "$", "#",
];

/// How many lines of exactly `tokens` tokens there are over the alphabet.
pub fn short_lines(tokens: u32) -> u64 {
    (ALPHABET.len() as u64).pow(tokens)
}

/// The line of that many tokens with that index, for going through all of them.
pub fn short_line(tokens: u32, index: u64) -> Vec<u8> {
    let letters = ALPHABET.len() as u64;
    let mut rest = index;
    let mut line = Vec::new();
    for place in 0..tokens {
        if place > 0 {
            line.push(b' ');
        }
        line.extend_from_slice(ALPHABET[(rest % letters) as usize].as_bytes());
        rest /= letters;
    }
    line
}
