//! Document 01's worked examples.

use zkasm::{AssembleRefusal, Label, Reason, Settings};

/// A source assembled with a table of 16 labels: the words, the settings and the bytes of its image.
fn assembled(source: &str) -> Result<(Vec<u32>, Settings, Vec<u8>), AssembleRefusal> {
    let mut table = [Label::default(); 16];
    let mut image = [0; 256];
    let answer = zkasm::assemble(source.as_bytes(), &mut table, &mut image)?;
    let image = &image[..32 + 4 * answer.words];
    let words = image[32..]
        .chunks(4)
        .map(|word| u32::from_le_bytes(word.try_into().unwrap()))
        .collect();
    Ok((words, answer.settings, image.to_vec()))
}

fn words(source: &str) -> Vec<u32> {
    assembled(source).unwrap().0
}

fn reason(source: &str) -> Reason {
    assembled(source).unwrap_err().reason
}

#[test]
fn an_empty_source_has_a_header_alone() {
    let (words, settings, image) = assembled("").unwrap();
    assert!(words.is_empty());
    let begin = Settings {
        limb_bits: 20,
        data_limbs: 2,
        addr_limbs: 2,
    };
    assert_eq!(settings, begin);
    let mut header = vec![
        0x5A, 0x4B, 0x49, 0x52, 4, 0, 3, 0, 0x14, 2, 2, 0, 0, 0x10, 0, 0,
    ];
    header.extend([0; 12]);
    header.extend([0, 0, 0x10, 0]);
    assert_eq!(image, header);
}

#[test]
fn instructions_have_their_words() {
    assert_eq!(words("add r1, r2, r3"), [0x00019080]);
    assert_eq!(words("addi r1, r0, 65535"), [0x7FFF8088]);
    assert_eq!(words("addi r1, r0, -65536"), [0x80000088]);
    assert_eq!(words("addi r1, r0, 0x1FFFF"), [0xFFFF8088]);
}

/// "01's examples with 276, `slli` 300 and `beq` 131072 now give 35" (document 02, request c).
#[test]
fn numbers_must_fit() {
    for source in [
        "slli r1, r2, 300",
        "beq r1, r2, 131072",
        ".config limb_bits 276",
    ] {
        let expected = AssembleRefusal {
            reason: Reason::NumberOutOfRange,
            rust_line: 1,
            line: 1,
            labels: 0,
            needed: None,
        };
        assert_eq!(assembled(source), Err(expected));
    }
    assert_eq!(reason("addi r1, r0, 0x20000"), Reason::NumberOutOfRange);
    assert_eq!(reason("jal r1, 2097150"), Reason::NumberOutOfRange);
    assert_eq!(reason("addi r1, x, 70000"), Reason::RegisterExpected);
    assert_eq!(reason(".config foo 256"), Reason::NumberOutOfRange);
    assert_eq!(reason(".config foo 255"), Reason::UnknownKey);
}

#[test]
fn a_label_is_named_as_a_target() {
    assert_eq!(words("x: jal r0, x"), [0x00000048]);
    assert_eq!(
        words("beq r1, r2, end\nadd r1, r2, r3\nend:"),
        [0x000410C0, 0x00019080]
    );
    assert_eq!(reason("jal ra, nope"), Reason::NoSuchLabel);
    assert_eq!(reason("jal r1, a5"), Reason::NumberExpected);
    assert_eq!(reason("jalr r1, r2, x\nx:"), Reason::NumberExpected);
}

#[test]
fn settings_are_checked() {
    // 20 is also where the setting begins: from another value, the line is seen to set it.
    let settings = assembled(".config limb_bits 24\n.config limb_bits 0x14")
        .unwrap()
        .1;
    assert_eq!(settings.limb_bits, 20);
    assert_eq!(reason(".config limb_bits 15"), Reason::LimbBitsRange);
    assert_eq!(reason(".config limb_bits 17"), Reason::LimbBitsOdd);
}

#[test]
fn names_and_numbers_are_told_apart() {
    assert_eq!(reason("r1:"), Reason::MnemonicExpected);
    assert_eq!(reason("ADD R1, r2, r3"), Reason::RegisterExpected);
    assert_eq!(reason("add a5, r1, r1"), Reason::NoSuchRegister);
    assert_eq!(reason("foo: bar:"), Reason::UnknownMnemonic);
    assert_eq!(reason("add r16, r1, r1"), Reason::RegisterExpected);
    assert_eq!(reason("jal r1, 0xg"), Reason::OperandCount);
    assert_eq!(
        reason("jal r0, -9223372036854775808"),
        Reason::NumberOutOfRange
    );
    assert_eq!(reason("jal r0, 9223372036854775808"), Reason::BadToken);
}

#[test]
fn the_program_is_listed() {
    let source = "start: ADDI a0, zero, -1 # one\n\
                  .config limb_bits 24\n\
                  sw a0, 8(sp)\n\
                  jal ra, 0x1FFFFE\n\
                  ecall\n";
    let listing = ".config limb_bits 24\n\
                   .config data_limbs 2\n\
                   .config addr_limbs 2\n\
                   addi r11, r0, -1\n\
                   sw r11, 8(r2)\n\
                   jal r1, -2\n\
                   ecall\n";
    let (words, settings, image) = assembled(source).unwrap();
    assert_eq!(words, [0xFFFF8588, 0x0004593A, 0xFFFFF0C8, 0x00000050]);
    let opened = zkasm::open(&image).unwrap();
    assert_eq!((opened.magic, opened.version), (0x52494B5A, 0x00030004));
    assert_eq!((opened.settings, opened.flags), (settings, 0));
    assert_eq!((opened.entry_point, opened.bss_size), (0x1000, 0));
    assert_eq!(opened.stack_size, 1 << 20);
    assert_eq!((opened.code, opened.data), (&image[32..], &[][..]));
    let mut text = [0; 256];
    let length = zkasm::list(&image, &mut text).unwrap();
    assert_eq!(std::str::from_utf8(&text[..length]).unwrap(), listing);
    assert_eq!(assembled(listing).unwrap().2, image);
}
