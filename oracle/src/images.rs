//! The fixed list of images, with what Opening and Listing answer by `model`.

use crate::answer::{answer, Answer};
use crate::gen::{self, Kind, Rng};
use crate::isa::{Row, ROWS};
use crate::list::{image_lines, write_pieces};
use crate::model::{list, open, unused_bits};
use crate::sources::PROGRAM;

/// The seeds of the programs whose images are listed whole, and of those that are damaged.
pub(crate) const WHOLE: std::ops::Range<u64> = 2000..2040;
pub(crate) const DAMAGED: std::ops::Range<u64> = 3000..3120;

/// A text buffer that holds every text of this list but those of the longest images, and one that
/// holds the text of every image.
const AMPLE: usize = 2048;
const LARGEST: usize = 721_000;

/// An image, and the length of the text buffer lent.
type Case = (Vec<u8>, usize);

/// Writes the records of all images.
pub(crate) fn write_images(out: &mut String) {
    for (image, room) in cases() {
        out.push('\n');
        write_record(out, &image, room);
    }
}

fn write_record(out: &mut String, image: &[u8], room: usize) {
    for line in image_lines(image) {
        *out += &format!("{line}\n");
    }
    *out += &format!("n {room}\n");
    *out += &match open(image) {
        Ok(opened) => format!(
            "o {} {} {} {} {} {} {} {} {}\n",
            opened.limb_bits,
            opened.data_limbs,
            opened.addr_limbs,
            opened.flags,
            opened.entry,
            opened.code_size,
            opened.data_size,
            opened.bss,
            opened.stack
        ),
        Err(number) => format!("q {number}\n"),
    };
    match list(image, room) {
        Ok(text) => {
            *out += &format!("y {}\n", text.len());
            write_pieces(out, text.as_bytes());
        }
        Err(refusal) => {
            *out += &format!(
                "z {} {} {}\n",
                refusal.number, refusal.index, refusal.needed
            );
        }
    }
}

fn cases() -> Vec<Case> {
    let ample = |images: Vec<Vec<u8>>| images.into_iter().map(|image| (image, AMPLE));
    let mut cases = Vec::new();
    cases.push((image_of_source(PROGRAM), AMPLE));
    cases.extend(ample(every_mnemonic()));
    cases.extend(ample(WHOLE.map(program_image).collect()));
    cases.extend(text_buffers());
    cases.extend(ample(short_images()));
    cases.extend(ample(header_faults()));
    cases.extend(ample(size_faults()));
    cases.extend(ample(plain_faults()));
    cases.extend(ample(unknown_opcodes()));
    cases.extend(ample(every_unused_bit()));
    cases.extend(ample(faulty_words()));
    cases.extend(ample(DAMAGED.map(damaged_image).collect()));
    cases.extend(long_images());
    let mut seen = std::collections::HashSet::new();
    cases.retain(|case| seen.insert(case.clone()));
    cases
}

/// An image of these words with the usual header.
pub fn image_of(words: &[u32]) -> Vec<u8> {
    let mut image = vec![0; 32];
    set(&mut image, 0, 0x5249_4B5A);
    set(&mut image, 4, 0x0003_0004);
    image[8..12].copy_from_slice(&[20, 2, 2, 0]);
    set(&mut image, 12, 0x1000);
    set(&mut image, 16, 4 * words.len() as u32);
    set(&mut image, 28, 1 << 20);
    image.extend(words.iter().flat_map(|word| word.to_le_bytes()));
    image
}

/// Sets a header field of 32 bits.
fn set(image: &mut [u8], at: usize, value: u32) {
    image[at..at + 4].copy_from_slice(&value.to_le_bytes());
}

/// An image of one `ecall` with some bytes changed.
fn changed(changes: &[(usize, u8)]) -> Vec<u8> {
    let mut image = image_of(&[0x50]);
    for (at, byte) in changes {
        image[*at] = *byte;
    }
    image
}

/// An image with these sizes in its header, and this many bytes behind the header.
fn sized(code: u32, data: u32, behind: usize) -> Vec<u8> {
    let mut image = image_of(&[]);
    set(&mut image, 16, code);
    set(&mut image, 20, data);
    image.resize(32 + behind, 0);
    image
}

/// The image of a made program.
fn program_image(seed: u64) -> Vec<u8> {
    image_of_source(&gen::source(Kind::Program, seed))
}

/// The image of an accepted source.
fn image_of_source(source: &[u8]) -> Vec<u8> {
    match answer(source) {
        Answer::Accepted { image, .. } => image,
        refused => panic!("a source with an image is refused: {refused:?}"),
    }
}

/// For each mnemonic an image of words with its fields at their ends and in between.
fn every_mnemonic() -> Vec<Vec<u8>> {
    ROWS.map(|row| image_of(&field_words(&row))).to_vec()
}

/// Words of a mnemonic with its fields at their ends and in between.
pub(crate) fn field_words(row: &Row) -> [u32; 10] {
    let fields = !unused_bits(row.form) & !0x7F;
    let registers = (1 << 7) | (2 << 11) | (3 << 15);
    let highest = 1 << (31 - fields.leading_zeros().min(31));
    [
        0,
        fields,
        registers,
        0x5555_5555,
        0xAAAA_AAAA,
        highest,
        !highest,
        0x0000_0780,
        0x0000_7800,
        0x0007_8000,
    ]
    .map(|bits: u32| row.opcode | bits & fields)
}

/// Text buffers from none to one more than needed.
fn text_buffers() -> Vec<Case> {
    let words = [0xFFFF_8588, 0x0004_593A, 0xFFFF_F0C8, 0x0000_0050];
    let mut cases = Vec::new();
    for count in 0..=words.len() {
        let image = image_of(&words[..count]);
        let needed = list(&image, AMPLE).expect("the words are good").len();
        for room in [
            0,
            1,
            needed / 2,
            needed - 1,
            needed,
            needed + 1,
            needed + 100,
        ] {
            cases.push((image.clone(), room));
        }
    }
    // A faulty word is seen before the buffer's length.
    cases.push((image_of(&[0x50, 0x7F]), 0));
    cases.push((image_of(&[0x50, 0xD0]), 10));
    cases.push((changed(&[(11, 1)]), 0));
    cases.push((changed(&[(0, 0)]), 0));
    cases
}

/// Images too short for a header, whatever stands in them.
fn short_images() -> Vec<Vec<u8>> {
    let good = image_of(&[0x50]);
    let mut images: Vec<_> = (0..32).map(|length| good[..length].to_vec()).collect();
    images.extend([1, 4, 31].map(|length| vec![0xFF; length]));
    images
}

/// Wrong magic, version and settings; of two faults the first one of the order decides.
fn header_faults() -> Vec<Vec<u8>> {
    let mut images = Vec::new();
    for at in 0..8 {
        let byte = image_of(&[])[at];
        images.extend([byte ^ 1, byte ^ 0x80, !byte].map(|wrong| changed(&[(at, wrong)])));
    }
    images.push(changed(&[(0, 0x52), (1, 0x49), (2, 0x4B), (3, 0x5A)]));
    images.push(changed(&[(4, 0), (5, 3), (6, 0), (7, 4)]));
    images.push(vec![0; 32]);
    images.push(vec![0xFF; 36]);
    for (at, values) in [
        (
            8,
            &[0, 1, 14, 15, 16, 17, 18, 19, 29, 30, 31, 32, 148, 255][..],
        ),
        (9, &[0, 1, 2, 3, 4, 5, 6, 128, 255]),
        (10, &[0, 1, 2, 3, 4, 130, 255]),
    ] {
        images.extend(values.iter().map(|value| changed(&[(at, *value)])));
    }
    images.extend([
        changed(&[(0, 0), (4, 0)]),
        changed(&[(4, 0), (8, 0)]),
        changed(&[(4, 0), (16, 1)]),
        changed(&[(8, 0), (9, 0), (10, 0)]),
        changed(&[(8, 17), (9, 0), (10, 0)]),
        changed(&[(8, 17), (9, 9)]),
        changed(&[(9, 0), (10, 0)]),
        changed(&[(9, 5), (16, 3)]),
        changed(&[(10, 0), (16, 3)]),
        changed(&[(10, 3), (11, 1)]),
        changed(&[(8, 15), (20, 1)]),
        changed(&[(8, 16), (9, 1), (10, 1)]),
        changed(&[(8, 30), (9, 4), (10, 1)]),
    ]);
    images
}

/// Sizes that do not fit the image, or each other.
fn size_faults() -> Vec<Vec<u8>> {
    let mut images = Vec::new();
    // 27, with the length right, and with the length wrong, where 27 comes first.
    for code in [1, 2, 3, 5, 6, 7] {
        images.push(sized(code, 0, code as usize));
        images.push(sized(code, 0, 8));
    }
    images.push(sized(2, 2, 4));
    images.push(sized(u32::MAX, 1, 0));
    images.push(sized(0xFFFF_FFFD, 3, 0));
    // 28: one too long, one too short, the wrong part.
    for behind in [0, 1, 3, 5, 7, 8, 12] {
        images.push(sized(4, 0, behind));
    }
    for (code, data, behind) in [
        (0, 0, 1),
        (0, 0, 4),
        (0, 1, 0),
        (0, 4, 3),
        (0, 4, 5),
        (4, 4, 4),
    ] {
        images.push(sized(code, data, behind));
    }
    // 28: sums that reach the length only when they are cut to 32 bits.
    for (code, data, behind) in [
        (0xFFFF_FFFC, 4, 0),
        (4, 0xFFFF_FFFC, 0),
        (8, 0xFFFF_FFFC, 4),
        (0x8000_0000, 0x8000_0000, 0),
        (0x8000_0000, 0x8000_0004, 4),
        (0xFFFF_FFE0, 0x20, 0),
        (0xFFFF_FFE0, 0x24, 4),
        (0xFFFF_FFFC, 0xFFFF_FFFF, 0),
        (0xFFFF_FFFC, 0, 0),
        (0, 0xFFFF_FFFF, 0),
        (0, 0xFFFF_FFE0, 0),
        (0x7FFF_FFFC, 0x8000_0004, 0),
    ] {
        images.push(sized(code, data, behind));
    }
    // Opened, and 29 for their data.
    for (code, data) in [(0, 1), (0, 2), (0, 4), (4, 1), (4, 4), (8, 3)] {
        images.push(sized(code, data, (code + data) as usize));
    }
    images
}

/// Headers that Opening takes and Listing does not.
fn plain_faults() -> Vec<Vec<u8>> {
    let mut images = Vec::new();
    for flags in [1, 2, 0x80, 0xFF] {
        images.push(changed(&[(11, flags)]));
    }
    for (at, values) in [
        (12, [0, 0xFFF, 0x1001, 0x1004, 0x0100_1000, u32::MAX]),
        (24, [1, 4, 0x100, 0x1_0000, 0x0100_0000, u32::MAX]),
        (
            28,
            [0, 0xF_FFFF, 0x10_0001, 0x20_0000, 0x0110_0000, u32::MAX],
        ),
    ] {
        for value in values {
            let mut image = image_of(&[0x50]);
            set(&mut image, at, value);
            images.push(image);
        }
    }
    // 29 comes before a faulty word, in every way.
    for change in [(11, 1), (12, 1), (24, 1), (28, 1)] {
        let mut image = changed(&[change]);
        set(&mut image, 32, 0x7F);
        images.push(image);
    }
    let mut data = sized(4, 4, 8);
    set(&mut data, 32, 0xFFFF_FFFF);
    images.push(data);
    images
}

/// Each opcode that is none, alone; with all other bits set too, as 30 comes before 31.
fn unknown_opcodes() -> Vec<Vec<u8>> {
    let known = |opcode: &u32| ROWS.iter().any(|row| row.opcode == *opcode);
    let unknown = (0..128).filter(|opcode| !known(opcode));
    unknown
        .flat_map(|opcode| [image_of(&[opcode]), image_of(&[0x50, opcode | !0x7F])])
        .collect()
}

/// Each unused bit of each form, and for each mnemonic its lowest, its highest and all of them.
fn every_unused_bit() -> Vec<Vec<u8>> {
    const ALL_BITS: [&str; 4] = ["add", "slli", "ecall", "ebreak"];
    let mut images = Vec::new();
    for row in ROWS {
        let unused = unused_bits(row.form);
        if unused == 0 {
            continue;
        }
        let lowest = unused.trailing_zeros();
        let one_by_one = ALL_BITS.contains(&row.mnemonic);
        for bit in (lowest..32).filter(|bit| one_by_one || *bit == lowest || *bit == 31) {
            images.push(image_of(&[row.opcode | 1 << bit]));
        }
        images.push(image_of(&[row.opcode, row.opcode | unused]));
    }
    images
}

/// The first faulty word decides, and its index is given.
fn faulty_words() -> Vec<Vec<u8>> {
    const GOOD: u32 = 0x0001_9080;
    const UNKNOWN: u32 = 0x7F;
    const UNUSED: u32 = 0x8000_0050;
    [
        &[UNKNOWN, UNUSED][..],
        &[UNUSED, UNKNOWN],
        &[GOOD, UNKNOWN, UNUSED],
        &[GOOD, UNUSED, UNKNOWN],
        &[GOOD, GOOD, GOOD, UNKNOWN],
        &[GOOD, GOOD, GOOD, UNUSED, GOOD],
        &[UNKNOWN, GOOD],
        &[UNUSED, GOOD],
        &[0xFFFF_FFFF],
        &[0x0008_0009],
        &[GOOD, 0xFFFF_FF80],
    ]
    .map(image_of)
    .to_vec()
}

/// As many words as there can be, and one more; 29 comes before a faulty word, which is found at the
/// very end too.
fn long_images() -> Vec<Case> {
    const MOST: usize = 32_768;
    const ECALL: u32 = 0x50;
    // No line is longer than `bltu r15, r15, -65536`.
    const LONGEST: u32 = 0x8000_7FC4;
    const UNKNOWN: u32 = 0x7F;
    const UNUSED: u32 = 0x8000_0050;
    let last = |word: u32| [vec![ECALL; MOST - 1], vec![word]].concat();
    [
        vec![LONGEST; MOST],
        vec![ECALL; MOST + 1],
        vec![UNKNOWN; MOST + 1],
        last(UNKNOWN),
        last(UNUSED),
    ]
    .map(|words| (image_of(&words), LARGEST))
    .to_vec()
}

/// The image of a made program with a few bits or bytes changed.
fn damaged_image(seed: u64) -> Vec<u8> {
    gen::damaged_image(&mut Rng::new(seed), &program_image(seed))
}
