//! What a call is refused for.

use std::fmt;

/// Makes the enum, the list of its cases and their texts from one table.
macro_rules! reasons {
    ($($number:literal $name:ident $text:literal,)+) => {
        /// What a call is refused for. A case's discriminant is its number. Later versions may have more.
        #[non_exhaustive]
        #[derive(Clone, Copy, Debug, PartialEq, Eq, Hash)]
        #[repr(u32)]
        pub enum Reason {
            $(#[doc = $text] $name = $number,)+
        }

        impl Reason {
            /// Every reason, from number 1 on.
            pub const ALL: &'static [Reason] = &[$(Reason::$name,)+];

            fn text(self) -> &'static str {
                match self {
                    $(Reason::$name => $text,)+
                }
            }
        }
    };
}

reasons! {
    1 SourceTooLong "the source has more than 1,048,576 bytes",
    2 NotAscii "the source has a byte above 127",
    3 BadToken "the line has a bad token",
    4 DuplicateLabel "the label has been entered before",
    5 TableFull "the label table is full",
    6 ConfigTokens "a .config line has three tokens",
    7 KeyExpected "the key of a .config line is an identifier",
    8 NumberExpected "a number is expected",
    9 UnknownKey "there is no such setting",
    10 LimbBitsRange "limb_bits is outside 16..30",
    11 LimbBitsOdd "limb_bits is odd",
    12 DataLimbsRange "data_limbs is outside 1..4",
    13 AddrLimbsRange "addr_limbs is outside 1..2",
    14 MnemonicExpected "a mnemonic is expected",
    15 UnknownMnemonic "there is no such mnemonic",
    16 OperandCount "the instruction has another count of operand tokens",
    17 RegisterExpected "a register is expected",
    18 NoSuchRegister "there is no such register",
    19 CommaExpected "`,` is expected",
    20 OpeningExpected "`(` is expected",
    21 ClosingExpected "`)` is expected",
    22 TooManyWords "the source has more than 32,768 instructions",
    23 ImageTooShort "the image buffer is too short",
    24 HeaderCut "the image has fewer than 32 bytes",
    25 WrongMagic "the image does not begin with the magic bytes",
    26 WrongVersion "the image is of another version",
    27 CodeSize "the code size is no multiple of 4",
    28 ImageLength "the image's length differs from 32 + code size + data size",
    29 UnusualHeader "flags, entry or a size is not as assembling writes it",
    30 UnknownOpcode "the word has an unknown opcode",
    31 UnusedBit "the word has an unused bit set",
    32 TextTooShort "the text buffer is too short",
    33 NoSuchLabel "there is no such label",
    34 LabelTooFar "the label is too far away for a branch",
    35 NumberOutOfRange "the number is out of its range",
}

impl Reason {
    /// The number, from 1 on.
    pub fn number(self) -> u32 {
        self as u32
    }

    /// The reason with a number that a call has returned, which is proved to be the number of one.
    pub(crate) fn of(number: u32) -> Reason {
        Reason::ALL[number as usize - 1]
    }
}

impl fmt::Display for Reason {
    fn fmt(&self, f: &mut fmt::Formatter) -> fmt::Result {
        write!(f, "refused {}: {}", self.number(), self.text())
    }
}

impl std::error::Error for Reason {}
