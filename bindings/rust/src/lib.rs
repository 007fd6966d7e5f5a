//! A zkIR assembler with proofs, called from Rust: assembling, opening and listing program images.
//!
//! Each function takes any input and gives a finished result or one numbered refusal. What it answers and what it leaves in the slices
//! lent to it is proved (`crates/capi`); this crate turns the numbers of the exported functions into Rust's types, and is not proved.
//!
//! ```
//! let mut labels = [zkasm::Label::default(); 4];
//! let mut image = [0; 64];
//! let answer = zkasm::assemble(b"start: add r1, r2, r3", &mut labels, &mut image).unwrap();
//! assert_eq!((answer.words, answer.labels), (1, 1));
//! assert_eq!(image[32..36], 0x00019080_u32.to_le_bytes());
//! ```

mod ffi;
mod reason;

use std::fmt;

pub use reason::Reason;

/// An entry of the label table.
#[repr(C)]
#[derive(Clone, Copy, Debug, Default, PartialEq, Eq)]
pub struct Label {
    /// Where its spelling begins, counted from the source's first byte.
    pub start: usize,
    /// The bytes of its spelling.
    pub length: usize,
    /// 0x1000 and four times the words before it.
    pub address: u64,
}

/// The three settings.
#[derive(Clone, Copy, Debug, PartialEq, Eq)]
pub struct Settings {
    pub limb_bits: u8,
    pub data_limbs: u8,
    pub addr_limbs: u8,
}

/// What is answered of a source that is accepted.
#[derive(Clone, Copy, Debug, PartialEq, Eq)]
pub struct Assembled {
    /// The instructions. The image is the first `32 + 4 * words` bytes of the buffer.
    pub words: usize,
    /// The labels entered into the table.
    pub labels: usize,
    /// The settings, as the source's `.config` lines leave them.
    pub settings: Settings,
}

/// Why a source is refused.
#[derive(Clone, Copy, Debug, PartialEq, Eq)]
pub struct AssembleRefusal {
    pub reason: Reason,
    /// The line that the Rust assembler of zkIR names: 0 for 1, 2, 3, 8, 18 and 23.
    pub rust_line: usize,
    /// The true line, from 1; 0 for 1 and 23.
    pub line: usize,
    /// The labels entered into the table before the refusal.
    pub labels: usize,
    /// Of [`Reason::ImageTooShort`]: the length that the image buffer must have.
    pub needed: Option<usize>,
}

/// Assembles a source. The last operand of `jal` and of the six branches is a number or a label anywhere in the source, which means the
/// bytes from the instruction's own address to the label's.
///
/// A decimal number is -65,536..65,535, that of `jal` -1,048,576..1,048,575, and that of a shift 0..255; one in hex or binary is a pattern
/// of at most 17, 21 or 8 bits. A setting is 0..255 in every base, which is seen before its key is looked up. Others are refused by
/// [`Reason::NumberOutOfRange`].
///
/// The labels are entered into the table in the order of the source, after a refusal too; entries past their count keep their values.
/// The image is written to the front of its buffer, and later bytes keep their values; a refusal leaves the whole buffer as it was.
/// 131,104 bytes hold every image.
///
/// A call takes at most 32 KB of stack, whatever the source.
pub fn assemble(
    source: &[u8],
    table: &mut [Label],
    image: &mut [u8],
) -> Result<Assembled, AssembleRefusal> {
    let (number, answer) = ffi::assemble(source, table, image);
    let labels = answer.labels as usize;
    if number == 0 {
        return Ok(Assembled {
            words: answer.words as usize,
            labels,
            settings: answer.settings.get(),
        });
    }
    let reason = Reason::of(number);
    Err(AssembleRefusal {
        reason,
        rust_line: answer.rust_line as usize,
        line: answer.line as usize,
        labels,
        needed: (reason == Reason::ImageTooShort).then_some(answer.needed as usize),
    })
}

/// The header and the parts of an image.
#[derive(Clone, Copy, Debug, PartialEq, Eq)]
pub struct Opened<'a> {
    pub magic: u32,
    pub version: u32,
    pub settings: Settings,
    pub flags: u8,
    /// The address where the program begins.
    pub entry_point: u32,
    pub bss_size: u32,
    pub stack_size: u32,
    /// The code part, after the header.
    pub code: &'a [u8],
    /// The data part, after the code.
    pub data: &'a [u8],
}

/// Reads and checks the header of an image: its settings, its other fields and its parts.
pub fn open(image: &[u8]) -> Result<Opened<'_>, Reason> {
    let (number, answer) = ffi::open(image);
    if number != 0 {
        return Err(Reason::of(number));
    }
    let (front, data) = image.split_at(answer.code_end as usize);
    Ok(Opened {
        magic: answer.magic as u32,
        version: answer.version as u32,
        settings: answer.settings.get(),
        flags: answer.flags as u8,
        entry_point: answer.entry_point as u32,
        bss_size: answer.bss_size as u32,
        stack_size: answer.stack_size as u32,
        code: &front[32..],
        data,
    })
}

/// Why an image is not listed.
#[derive(Clone, Copy, Debug, PartialEq, Eq)]
pub struct ListRefusal {
    pub reason: Reason,
    /// Of [`Reason::UnknownOpcode`] and [`Reason::UnusedBit`]: the faulty word, from 0.
    pub index: Option<usize>,
    /// Of [`Reason::TextTooShort`]: the length that the text buffer must have.
    pub needed: Option<usize>,
}

/// Writes the text of an image to the front of a buffer, and answers its length.
///
/// Later bytes keep their values; a refusal leaves the whole buffer as it was. 720,962 bytes hold every text. The text, assembled again,
/// gives the same image.
pub fn list(image: &[u8], text: &mut [u8]) -> Result<usize, ListRefusal> {
    let (number, answer) = ffi::list(image, text);
    if number == 0 {
        return Ok(answer.length as usize);
    }
    let reason = Reason::of(number);
    let at_word = matches!(reason, Reason::UnknownOpcode | Reason::UnusedBit);
    Err(ListRefusal {
        reason,
        index: at_word.then_some(answer.index as usize),
        needed: (reason == Reason::TextTooShort).then_some(answer.needed as usize),
    })
}

impl fmt::Display for AssembleRefusal {
    fn fmt(&self, f: &mut fmt::Formatter) -> fmt::Result {
        match self.needed {
            Some(needed) => write!(f, "{}, {needed} bytes are needed", self.reason),
            None => write!(f, "line {}: {}", self.line, self.reason),
        }
    }
}

impl std::error::Error for AssembleRefusal {}

impl fmt::Display for ListRefusal {
    fn fmt(&self, f: &mut fmt::Formatter) -> fmt::Result {
        match (self.index, self.needed) {
            (Some(index), _) => write!(f, "word {index}: {}", self.reason),
            (None, Some(needed)) => write!(f, "{}, {needed} bytes are needed", self.reason),
            (None, None) => self.reason.fmt(f),
        }
    }
}

impl std::error::Error for ListRefusal {}
