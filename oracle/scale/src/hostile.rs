//! Hostile input: bytes in no order, and sources and images with a few changes.

use oracle::gen::{self, Rng, ALPHABET, GOOD_NUMBERS, KINDS, ODD_NUMBERS};
use oracle::isa::{REGISTERS, ROWS};
use oracle::model::{unused_bits, MAGIC, VERSION};
use oracle::{image_of, MOST_SOURCE_BYTES, MOST_WORDS};

use crate::large;

const EXAMPLES: [&[u8]; 2] = [
    include_bytes!("../../../examples/salt.zkir"),
    include_bytes!("../../../examples/no_register.zkir"),
];

/// One input in so many is beyond a limit; they take long.
const SELDOM: usize = 1 << 17;

pub fn source(rng: &mut Rng) -> Vec<u8> {
    if rng.below(SELDOM) == 0 {
        return beyond_a_limit(rng);
    }
    let mut source = match rng.below(8) {
        0 if rng.percent(20) => bytes(rng, |rng| rng.below(256) as u8),
        0 | 1 => bytes(rng, |rng| rng.below(128) as u8),
        2 => bytes(rng, |rng| rng.pick(b"ar01x.-_:,() \t\n#$l")),
        3 => (0..rng.below(40)).flat_map(|_| piece(rng)).collect(),
        4 => rng.pick(&EXAMPLES).to_vec(),
        5 => {
            let length = 1 + rng.below(3000);
            large::KINDS[rng.below(large::KINDS.len())].source(rng, length)
        }
        _ => gen::source(rng.pick(&KINDS), rng.bits()),
    };
    for _ in 0..rng.below(5) {
        match rng.below(10) {
            0 => aim(rng, &mut source),
            1 => renumber(rng, &mut source),
            _ => change(rng, &mut source, piece),
        }
    }
    source
}

/// Whether a byte may stand in a name or a number.
fn is_part(byte: u8) -> bool {
    byte.is_ascii_alphanumeric() || byte == b'_'
}

/// Puts a number about the ends of a range in the place of one of a source, if it has any.
fn renumber(rng: &mut Rng, source: &mut Vec<u8>) {
    let begins =
        |at: &usize| source[*at].is_ascii_digit() && (*at == 0 || !is_part(source[*at - 1]));
    let digits: Vec<usize> = (0..source.len()).filter(begins).collect();
    if digits.is_empty() {
        return;
    }
    let digit = rng.pick(&digits);
    let length = source[digit..]
        .iter()
        .take_while(|it| is_part(**it))
        .count();
    let signed = digit > 0 && source[digit - 1] == b'-';
    let number = gen::about_some_end(rng);
    source.splice(digit - usize::from(signed)..digit + length, number.bytes());
}

/// Puts a line into a source, or behind its end, that jumps to one of its labels, if it has any.
fn aim(rng: &mut Rng, source: &mut Vec<u8>) {
    let colons: Vec<usize> = (0..source.len()).filter(|at| source[*at] == b':').collect();
    if colons.is_empty() {
        return;
    }
    let colon = rng.pick(&colons);
    let length = source[..colon]
        .iter()
        .rev()
        .take_while(|it| is_part(**it))
        .count();
    let jump = rng.pick(&[
        "\njal ra,",
        "\nbne r1, r2, ",
        "\n\tBLTU a0,a1,",
        "\nx: jal r0, ",
    ]);
    let line = [jump.as_bytes(), &source[colon - length..colon], b"\n"].concat();
    let ends = (0..source.len()).filter(|at| source[*at] == b'\n');
    let ends: Vec<usize> = ends.chain([source.len()]).collect();
    let at = rng.pick(&ends);
    source.splice(at..at, line);
}

/// About as many instructions or bytes as there may be, or about as many words as a branch goes over.
fn beyond_a_limit(rng: &mut Rng) -> Vec<u8> {
    let mut source = match rng.below(3) {
        0 => b"ecall\n".repeat(MOST_WORDS + rng.below(3)),
        1 => {
            let words = b"ecall\n".repeat(16_381 + rng.below(6));
            [b"l: blt r1, r2, m\n", &words[..], b"m: bge r1, r2, l"].concat()
        }
        _ => {
            let some = [bytes(rng, |rng| rng.below(128) as u8), vec![b'\n']].concat();
            let length = MOST_SOURCE_BYTES + rng.below(2);
            some.into_iter().cycle().take(length).collect()
        }
    };
    for _ in 0..rng.below(3) {
        change(rng, &mut source, piece);
    }
    source.truncate(MOST_SOURCE_BYTES + 1);
    source
}

pub fn image(rng: &mut Rng) -> Vec<u8> {
    if rng.below(SELDOM) == 0 {
        return image_of(&vec![0x50; MOST_WORDS + rng.below(2)]);
    }
    let count = rng.below(20);
    let mut image = match rng.below(4) {
        0 => bytes(rng, |rng| rng.below(256) as u8),
        1 => image_of(&(0..count).map(|_| rng.bits() as u32).collect::<Vec<_>>()),
        _ => image_of(&(0..count).map(|_| good_word(rng)).collect::<Vec<_>>()),
    };
    for _ in 0..rng.below(4) {
        change(rng, &mut image, field);
    }
    image
}

fn bytes(rng: &mut Rng, byte: fn(&mut Rng) -> u8) -> Vec<u8> {
    (0..rng.below(200)).map(|_| byte(rng)).collect()
}

/// A word that some instruction has.
fn good_word(rng: &mut Rng) -> u32 {
    let row = rng.pick(&ROWS);
    row.opcode | rng.bits() as u32 & !unused_bits(row.form) & !0x7F
}

/// Part of a source.
fn piece(rng: &mut Rng) -> Vec<u8> {
    let piece = match rng.below(10) {
        0 | 1 => rng.pick(&ALPHABET),
        2 => rng.pick(&GOOD_NUMBERS),
        3 => rng.pick(&ODD_NUMBERS),
        4 => rng.pick(&REGISTERS),
        5 => rng.pick(&ROWS).mnemonic,
        6 => return gen::about_some_end(rng).as_bytes().to_vec(),
        7 => return gen::numbered_line(rng),
        _ => rng.pick(&PIECES),
    };
    piece.into()
}

#[rustfmt::skip]
const PIECES: [&str; 18] = [
    "\n", "\r\n", " ", "\t", "\x0b", "é", "\0", ".config limb_bits ", "\nl:\n", "l: ", ", ", "(r1)",
    "\necall\n", "\njal ra, l\n", "\nbeq r1, r2, x\n", "l: jal r0, l", ", l\n", "\nx:\n",
];

/// A header's field or a word.
fn field(rng: &mut Rng) -> Vec<u8> {
    let field = match rng.below(8) {
        0 => rng.bits() as u32,
        1 => 4 * rng.below(20) as u32,
        _ => rng.pick(&FIELDS),
    };
    field.to_le_bytes().to_vec()
}

/// What fields and words should be, or should not.
#[rustfmt::skip]
const FIELDS: [u32; 14] = [
    MAGIC, VERSION, 0x1000, 1 << 20, 0, 1, 4, 0x50, 0x7F, 0xD0, 0x7FFF_FFFF, 0x8000_0000,
    0xFFFF_FFFC, 0xFFFF_FFFF,
];

/// One change to a source or an image, for which `piece` is of use.
fn change(rng: &mut Rng, input: &mut Vec<u8>, piece: fn(&mut Rng) -> Vec<u8>) {
    let at = rng.below(input.len() + 1);
    let end = input.len().min(at + rng.below(40));
    match rng.below(8) {
        0 => drop(input.drain(at..end)),
        1 => {
            let times = rng.pick(&[1, 1, 1, 2, 10, 100]);
            let repeated = input[at..end].repeat(times);
            input.splice(at..at, repeated);
        }
        2 => input.truncate(at),
        3 => drop(input.splice(at..at, piece(rng))),
        4 => {
            // In place, and where a field of an image may stand.
            let piece = piece(rng);
            let at = at / 4 * 4;
            let end = input.len().min(at + piece.len());
            input.splice(at..end, piece);
        }
        _ if at == input.len() => input.push(rng.below(128) as u8),
        5 | 6 => input[at] = rng.below(128) as u8,
        _ => input[at] ^= 1 << rng.below(8),
    }
}
