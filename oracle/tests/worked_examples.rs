//! Document 01's worked examples, through the reference, as document 02 changes them.

use oracle::{answer, Answer, Label, Settings};

/// The words of an accepted source's image.
fn words(source: &str) -> Vec<u32> {
    let Answer::Accepted { image, words, .. } = answer(source.as_bytes()) else {
        panic!("{source} is refused");
    };
    assert_eq!(image.len(), 32 + 4 * words);
    let code = image[32..].chunks(4);
    code.map(|word| u32::from_le_bytes(word.try_into().unwrap()))
        .collect()
}

/// Number, the Rust's line and the true line of a refusal.
fn refusal(source: &str) -> (u32, usize, usize) {
    match answer(source.as_bytes()) {
        Answer::Refused {
            number,
            rust_line,
            true_line,
            ..
        } => (number, rust_line, true_line),
        accepted => panic!("{source} is accepted: {accepted:?}"),
    }
}

fn settings(source: &str) -> [u8; 3] {
    match answer(source.as_bytes()) {
        Answer::Accepted { settings, .. } => {
            [settings.limb_bits, settings.data_limbs, settings.addr_limbs]
        }
        refused => panic!("{source} is refused: {refused:?}"),
    }
}

#[test]
fn the_empty_source() {
    let Answer::Accepted { image, .. } = answer(b"") else {
        panic!("the empty source is refused");
    };
    let mut header = vec![0x5A, 0x4B, 0x49, 0x52, 0x04, 0x00, 0x03, 0x00];
    header.extend([0x14, 0x02, 0x02, 0x00, 0x00, 0x10, 0x00, 0x00]);
    header.extend([0; 12]);
    header.extend([0x00, 0x00, 0x10, 0x00]);
    assert_eq!(image, header);
}

#[test]
fn words_of_single_lines() {
    assert_eq!(words("add r1, r2, r3"), [0x0001_9080]);
    assert_eq!(words("addi r1, r0, 65535"), [0x7FFF_8088]);
    assert_eq!(words("addi r1, r0, -65536"), [0x8000_0088]);
    assert_eq!(words("addi r1, r0, 0x1FFFF"), [0xFFFF_8088]);
}

/// "01's examples with 276, `slli` 300 and `beq` 131072 now give 35".
#[test]
fn numbers_must_fit() {
    assert_eq!(refusal("slli r1, r2, 300"), (35, 1, 1));
    assert_eq!(refusal("beq r1, r2, 131072"), (35, 1, 1));
    assert_eq!(refusal(".config limb_bits 276"), (35, 1, 1));
    // It is a number, unlike 9223372036854775808.
    assert_eq!(refusal("addi r0, r0, -9223372036854775808"), (35, 1, 1));
}

#[test]
fn settings_are_taken_in_order() {
    assert_eq!(
        settings(".config limb_bits 30\n.config limb_bits 0x14"),
        [20, 2, 2]
    );
    assert_eq!(
        settings(".config data_limbs 0b100\n.config addr_limbs 01"),
        [20, 4, 1]
    );
    assert_eq!(refusal(".config limb_bits 15"), (10, 1, 1));
    assert_eq!(refusal(".config limb_bits 17"), (11, 1, 1));
}

#[test]
fn refusals() {
    assert_eq!(refusal("r1:"), (14, 1, 1));
    assert_eq!(refusal("ADD R1, r2, r3"), (17, 1, 1));
    assert_eq!(refusal("add a5, r1, r1"), (18, 0, 1));
    assert_eq!(refusal("foo: bar:"), (15, 1, 1));
    assert_eq!(refusal("r16"), (15, 1, 1));
    assert_eq!(refusal("0xg"), (14, 1, 1));
    assert_eq!(refusal("jal r1, 0xg"), (16, 1, 1));
    assert_eq!(refusal("\njal r1, 9223372036854775808"), (3, 0, 2));
}

#[test]
fn the_program() {
    let source = b"start: ADDI a0, zero, -1 # one\n.config limb_bits 24\n\
        sw a0, 8(sp)\njal ra, 0x1FFFFE\necall\n";
    let text = std::str::from_utf8(source).unwrap();
    assert_eq!(
        words(text),
        [0xFFFF_8588, 0x0004_593A, 0xFFFF_F0C8, 0x0000_0050]
    );
    let Answer::Accepted {
        image,
        labels,
        settings,
        ..
    } = answer(source)
    else {
        panic!("the program is refused");
    };
    assert_eq!(
        labels,
        [Label {
            start: 0,
            length: 5,
            address: 0x1000
        }]
    );
    assert_eq!(
        settings,
        Settings {
            limb_bits: 24,
            data_limbs: 2,
            addr_limbs: 2
        }
    );
    let listing = ".config limb_bits 24\n.config data_limbs 2\n.config addr_limbs 2\n\
        addi r11, r0, -1\nsw r11, 8(r2)\njal r1, -2\necall\n";
    assert_eq!(
        oracle::model::list(&image, listing.len()).as_deref(),
        Ok(listing)
    );
}

#[test]
fn labels_of_a_refused_line() {
    let labels = |source: &str| answer(source.as_bytes()).labels().len();
    assert_eq!(labels("a:\nb: bogus"), 2);
    assert_eq!(labels("a:\nb: $"), 1);
    assert_eq!(labels("a:\na: ecall"), 1);
    assert_eq!(labels("a:\nbogus # b:"), 1);
    assert_eq!(labels("a:\nbogus b:\nc:"), 1);
    assert_eq!(labels("ecall: .config limb_bits 20"), 1);
}
