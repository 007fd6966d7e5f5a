//! Opening and Listing, written from document 01 alone. No reader among the reference's files does
//! what document 01 asks, so this model answers in their place.

use crate::isa::{Form, Row, ROWS};
use crate::limits::MOST_WORDS;

pub const HEADER: usize = 32;
pub const MAGIC: u32 = 0x5249_4B5A;
pub const VERSION: u32 = 0x0003_0004;
const ENTRY: u32 = 0x1000;
const STACK: u32 = 1 << 20;

/// The header's fields but magic and version.
#[derive(Clone, Debug, PartialEq, Eq)]
pub struct Opened {
    pub limb_bits: u8,
    pub data_limbs: u8,
    pub addr_limbs: u8,
    pub flags: u8,
    pub entry: u32,
    pub code_size: u32,
    pub data_size: u32,
    pub bss: u32,
    pub stack: u32,
}

/// A refusal of Listing: `index` is for 30 and 31, `needed` for 32, otherwise they are 0.
#[derive(Clone, Copy, Debug, PartialEq, Eq)]
pub struct NotListed {
    pub number: u32,
    pub index: usize,
    pub needed: usize,
}

impl NotListed {
    fn number(number: u32) -> Self {
        NotListed {
            number,
            index: 0,
            needed: 0,
        }
    }
}

/// Opening: the header, or the refusal's number.
pub fn open(image: &[u8]) -> Result<Opened, u32> {
    if image.len() < HEADER {
        return Err(24);
    }
    if field(image, 0) != MAGIC {
        return Err(25);
    }
    if field(image, 4) != VERSION {
        return Err(26);
    }
    let opened = Opened {
        limb_bits: image[8],
        data_limbs: image[9],
        addr_limbs: image[10],
        flags: image[11],
        entry: field(image, 12),
        code_size: field(image, 16),
        data_size: field(image, 20),
        bss: field(image, 24),
        stack: field(image, 28),
    };
    check_settings(&opened)?;
    if !opened.code_size.is_multiple_of(4) {
        return Err(27);
    }
    // "added as whole numbers": 64 bits cannot overflow here.
    let length = HEADER as u64 + u64::from(opened.code_size) + u64::from(opened.data_size);
    if image.len() as u64 != length {
        return Err(28);
    }
    Ok(opened)
}

fn check_settings(opened: &Opened) -> Result<(), u32> {
    if !(16..=30).contains(&opened.limb_bits) {
        return Err(10);
    }
    if opened.limb_bits % 2 == 1 {
        return Err(11);
    }
    if !(1..=4).contains(&opened.data_limbs) {
        return Err(12);
    }
    if !(1..=2).contains(&opened.addr_limbs) {
        return Err(13);
    }
    Ok(())
}

/// Listing: the text, or the refusal.
pub fn list(image: &[u8], room: usize) -> Result<String, NotListed> {
    let opened = open(image).map_err(NotListed::number)?;
    let words = opened.code_size as usize / 4;
    let plain = opened.flags == 0
        && opened.entry == ENTRY
        && opened.data_size == 0
        && opened.bss == 0
        && opened.stack == STACK;
    if !plain || words > MOST_WORDS {
        return Err(NotListed::number(29));
    }
    let mut text = format!(
        ".config limb_bits {}\n.config data_limbs {}\n.config addr_limbs {}\n",
        opened.limb_bits, opened.data_limbs, opened.addr_limbs
    );
    for index in 0..words {
        let line = line_of(field(image, HEADER + 4 * index)).map_err(|number| NotListed {
            index,
            ..NotListed::number(number)
        })?;
        text += &line;
        text.push('\n');
    }
    if text.len() > room {
        return Err(NotListed {
            needed: text.len(),
            ..NotListed::number(32)
        });
    }
    Ok(text)
}

/// The listing's line for a word, or 30 or 31.
pub(crate) fn line_of(word: u32) -> Result<String, u32> {
    let opcode = word & 0x7F;
    let Row { mnemonic, form, .. } = ROWS.iter().find(|row| row.opcode == opcode).ok_or(30u32)?;
    if word & unused_bits(*form) != 0 {
        return Err(31);
    }
    let (at_7, at_11, at_15) = (bits(word, 7, 4), bits(word, 11, 4), bits(word, 15, 4));
    let n = signed(word, 15, 17);
    Ok(match form {
        Form::Registers => format!("{mnemonic} r{at_7}, r{at_11}, r{at_15}"),
        Form::Immediate | Form::Branch => format!("{mnemonic} r{at_7}, r{at_11}, {n}"),
        Form::Shift => format!("{mnemonic} r{at_7}, r{at_11}, {}", bits(word, 15, 8)),
        Form::Load => format!("{mnemonic} r{at_7}, {n}(r{at_11})"),
        // rs1 stands at 7 and rs2 at 11, and rs2 is written first.
        Form::Store => format!("{mnemonic} r{at_11}, {n}(r{at_7})"),
        Form::Jump => format!("{mnemonic} r{at_7}, {}", signed(word, 11, 21)),
        Form::Bare => mnemonic.to_string(),
    })
}

/// The bits that must be zero.
pub fn unused_bits(form: Form) -> u32 {
    match form {
        Form::Registers => u32::MAX << 19,
        Form::Shift => u32::MAX << 23,
        Form::Bare => u32::MAX << 7,
        Form::Immediate | Form::Load | Form::Store | Form::Branch | Form::Jump => 0,
    }
}

fn bits(word: u32, low: u32, width: u32) -> u32 {
    (word >> low) & ((1 << width) - 1)
}

fn signed(word: u32, low: u32, width: u32) -> i64 {
    let value = i64::from(bits(word, low, width));
    match value >> (width - 1) {
        0 => value,
        _ => value - (1 << width),
    }
}

/// A little-endian field of 32 bits.
fn field(image: &[u8], at: usize) -> u32 {
    let bytes = image[at..at + 4].try_into().expect("four bytes");
    u32::from_le_bytes(bytes)
}
