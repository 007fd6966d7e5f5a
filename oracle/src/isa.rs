//! The fifty mnemonics and the register names of document 01, and what numbers may be.

use std::ops::RangeInclusive;

/// Where a word keeps its operands, and how they are written.
#[derive(Clone, Copy, Debug, PartialEq, Eq)]
pub enum Form {
    /// `rd, rs1, rs2`
    Registers,
    /// `rd, rs1, n`, n over 17 bits
    Immediate,
    /// `rd, rs1, n`, n over 8 bits
    Shift,
    /// `rd, n(rs1)`
    Load,
    /// `rs2, n(rs1)`
    Store,
    /// `rs1, rs2, n`
    Branch,
    /// `rd, n`, n over 21 bits
    Jump,
    /// no operands
    Bare,
}

/// What stands in one place of an operand list.
#[derive(Clone, Copy, Debug, PartialEq, Eq)]
pub enum Place {
    Register,
    Number,
    Mark(&'static str),
}

impl Form {
    /// The operand tokens, left to right.
    pub fn places(self) -> &'static [Place] {
        use Place::{Mark, Number, Register};
        const COMMA: Place = Mark(",");
        match self {
            Form::Registers => &[Register, COMMA, Register, COMMA, Register],
            Form::Immediate | Form::Shift | Form::Branch => {
                &[Register, COMMA, Register, COMMA, Number]
            }
            Form::Load | Form::Store => &[Register, COMMA, Number, Mark("("), Register, Mark(")")],
            Form::Jump => &[Register, COMMA, Number],
            Form::Bare => &[],
        }
    }

    /// The field of its number, if it has one.
    pub fn field(self) -> Option<Field> {
        let (width, signed) = match self {
            Form::Registers | Form::Bare => return None,
            Form::Immediate | Form::Load | Form::Store | Form::Branch => (17, true),
            Form::Shift => (8, false),
            Form::Jump => (21, true),
        };
        Some(Field { width, signed })
    }
}

/// Where a number is kept, which says what it may be: "Decimal immediates must now lie in
/// -65,536..65,535, for jal in -1,048,576..1,048,575, for shifts in 0..255. Hex and binary are bit
/// patterns and must fit 17, 21 or 8 bits." (document 02, request c)
#[derive(Clone, Copy, Debug, PartialEq, Eq)]
pub struct Field {
    pub width: u32,
    /// Whether decimal numbers have a sign.
    pub signed: bool,
}

/// "A setting must be 0..255".
pub const SETTING: Field = Field {
    width: 8,
    signed: false,
};

impl Field {
    /// The decimal numbers that fit.
    pub fn decimals(self) -> RangeInclusive<i64> {
        let below = match self.signed {
            true => 1 << (self.width - 1),
            false => 0,
        };
        -below..=(1 << self.width) - below - 1
    }

    /// The numbers that fit in Hex and Binary.
    pub fn patterns(self) -> RangeInclusive<u64> {
        0..=(1 << self.width) - 1
    }
}

#[derive(Clone, Copy, Debug)]
pub struct Row {
    pub mnemonic: &'static str,
    pub opcode: u32,
    pub form: Form,
}

const fn row(mnemonic: &'static str, opcode: u32, form: Form) -> Row {
    Row {
        mnemonic,
        opcode,
        form,
    }
}

/// By ascending opcode.
pub const ROWS: [Row; 50] = [
    row("add", 0x00, Form::Registers),
    row("sub", 0x01, Form::Registers),
    row("mul", 0x02, Form::Registers),
    row("mulh", 0x03, Form::Registers),
    row("divu", 0x04, Form::Registers),
    row("remu", 0x05, Form::Registers),
    row("div", 0x06, Form::Registers),
    row("rem", 0x07, Form::Registers),
    row("addi", 0x08, Form::Immediate),
    row("and", 0x10, Form::Registers),
    row("or", 0x11, Form::Registers),
    row("xor", 0x12, Form::Registers),
    row("andi", 0x13, Form::Immediate),
    row("ori", 0x14, Form::Immediate),
    row("xori", 0x15, Form::Immediate),
    row("sll", 0x18, Form::Registers),
    row("srl", 0x19, Form::Registers),
    row("sra", 0x1A, Form::Registers),
    row("slli", 0x1B, Form::Shift),
    row("srli", 0x1C, Form::Shift),
    row("srai", 0x1D, Form::Shift),
    row("sltu", 0x20, Form::Registers),
    row("sgeu", 0x21, Form::Registers),
    row("slt", 0x22, Form::Registers),
    row("sge", 0x23, Form::Registers),
    row("seq", 0x24, Form::Registers),
    row("sne", 0x25, Form::Registers),
    row("cmov", 0x26, Form::Registers),
    row("cmovz", 0x27, Form::Registers),
    row("cmovnz", 0x28, Form::Registers),
    row("lb", 0x30, Form::Load),
    row("lbu", 0x31, Form::Load),
    row("lh", 0x32, Form::Load),
    row("lhu", 0x33, Form::Load),
    row("lw", 0x34, Form::Load),
    row("ld", 0x35, Form::Load),
    row("sb", 0x38, Form::Store),
    row("sh", 0x39, Form::Store),
    row("sw", 0x3A, Form::Store),
    row("sd", 0x3B, Form::Store),
    row("beq", 0x40, Form::Branch),
    row("bne", 0x41, Form::Branch),
    row("blt", 0x42, Form::Branch),
    row("bge", 0x43, Form::Branch),
    row("bltu", 0x44, Form::Branch),
    row("bgeu", 0x45, Form::Branch),
    row("jal", 0x48, Form::Jump),
    row("jalr", 0x49, Form::Immediate),
    row("ecall", 0x50, Form::Bare),
    row("ebreak", 0x51, Form::Bare),
];

/// The register names that mean a register; `a5` is a Register token and means none.
#[rustfmt::skip]
pub const REGISTERS: [&str; 32] = [
    "r0", "r1", "r2", "r3", "r4", "r5", "r6", "r7",
    "r8", "r9", "r10", "r11", "r12", "r13", "r14", "r15",
    "zero", "ra", "sp", "gp", "tp", "fp", "s0", "s1",
    "t0", "t1", "t2", "a0", "a1", "a2", "a3", "a4",
];

pub const KEYS: [&str; 3] = ["limb_bits", "data_limbs", "addr_limbs"];
