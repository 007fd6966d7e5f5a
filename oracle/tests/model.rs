//! The table of mnemonics against the reference, and the one refusal too large for a list.

use oracle::isa::{REGISTERS, ROWS};
use oracle::model::{list, NotListed};
use oracle::{answer_within, Answer};
use zkir_spec::Opcode;

#[test]
fn the_table_is_that_of_the_reference() {
    let known = (0..128).filter_map(Opcode::from_u8);
    assert!(known
        .map(|opcode| opcode.to_u8() as u32)
        .eq(ROWS.iter().map(|row| row.opcode)));
    for row in ROWS {
        let opcode = Opcode::from_u8(row.opcode as u8).unwrap();
        assert_eq!(opcode.to_string(), row.mnemonic);
    }
    for name in REGISTERS {
        assert!(zkir_assembler::parser::parse_register(name).is_ok());
    }
}

#[test]
fn at_most_32768_words_are_listed() {
    let source = "bgeu r15, r15, -65536\n".repeat(32_768);
    let Answer::Accepted { mut image, .. } = answer_within(source.as_bytes(), 0, usize::MAX) else {
        panic!("32,768 instructions are accepted");
    };
    let head = ".config limb_bits 20\n.config data_limbs 2\n.config addr_limbs 2\n";
    assert_eq!(list(&image, usize::MAX), Ok(head.to_string() + &source));
    image.extend([0; 4]);
    image[16..20].copy_from_slice(&(4 * 32_769u32).to_le_bytes());
    let refusal = NotListed {
        number: 29,
        index: 0,
        needed: 0,
    };
    assert_eq!(list(&image, usize::MAX), Err(refusal));
}
