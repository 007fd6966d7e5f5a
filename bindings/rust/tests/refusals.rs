//! Every refusal, with what it carries.

use zkasm::{AssembleRefusal, Label, ListRefusal, Reason};

/// An image with two words, to be spoiled.
fn good_image() -> Vec<u8> {
    let mut image = vec![0; 40];
    zkasm::assemble(b"add r1, r2, r3\necall", &mut [], &mut image).unwrap();
    image
}

fn spoiled(at: usize, byte: u8) -> Vec<u8> {
    let mut image = good_image();
    image[at] = byte;
    image
}

fn refusal(source: &[u8]) -> AssembleRefusal {
    let mut image = vec![0; 131_104];
    zkasm::assemble(source, &mut [Label::default(); 1], &mut image).unwrap_err()
}

#[test]
fn reasons_are_numbered_from_1_to_35() {
    let numbers: Vec<u32> = Reason::ALL.iter().map(|reason| reason.number()).collect();
    assert_eq!(numbers, (1..=35).collect::<Vec<u32>>());
}

#[test]
fn sources_are_refused_by_their_number() {
    // number, the Rust's line, the true line, labels
    let cases: &[(u32, usize, usize, usize, &[u8])] = &[
        (2, 0, 2, 0, b"a:\n\xFF"),
        (3, 0, 2, 1, b"a:\nadd r1, r2, $"),
        (4, 2, 2, 1, b"a:\na:"),
        (5, 3, 3, 1, b"a:\n\nb:"),
        (6, 1, 1, 0, b".config limb_bits"),
        (7, 1, 1, 0, b".config 1 2"),
        (8, 0, 1, 0, b".config limb_bits x"),
        (8, 0, 2, 0, b"\njal r1, r2"),
        (9, 1, 1, 0, b".config x 1"),
        (10, 1, 1, 0, b".config limb_bits 32"),
        (11, 1, 1, 0, b".config limb_bits 17"),
        (12, 1, 1, 0, b".config data_limbs 5"),
        (13, 1, 1, 0, b".config addr_limbs 0"),
        (14, 1, 1, 0, b"r1:"),
        (15, 1, 1, 1, b"foo: bar:"),
        (16, 1, 1, 0, b"add r1, r2"),
        (17, 1, 1, 0, b"add 1, r2, r3"),
        (18, 0, 1, 0, b"add a5, r1, r1"),
        (19, 1, 1, 0, b"add r1 r2 r3 r4 r5"),
        (20, 1, 1, 0, b"lw r1, 4, r2)"),
        (21, 1, 1, 0, b"lw r1, 4(r2("),
        (33, 2, 2, 1, b"a: ecall\njal ra, A"),
        (35, 2, 2, 1, b"\na: addi r1, r0, 65536"),
        (35, 1, 1, 0, b".config x 256"),
    ];
    for &(number, rust_line, line, labels, source) in cases {
        let expected = AssembleRefusal {
            reason: Reason::ALL[number as usize - 1],
            rust_line,
            line,
            labels,
            needed: None,
        };
        assert_eq!(refusal(source), expected);
    }
}

#[test]
fn limits_are_refused() {
    let long = refusal(&[b'\n'; 1_048_577]);
    assert_eq!(long.reason, Reason::SourceTooLong);
    assert_eq!((long.rust_line, long.line, long.labels), (0, 0, 0));
    let many = refusal(&b"ecall\n".repeat(32_769));
    assert_eq!(many.reason, Reason::TooManyWords);
    assert_eq!((many.rust_line, many.line), (32_769, 32_769));
    let far = refusal(&[&b"far:"[..], &b"\necall".repeat(16_385), b"\nbne r1, r2, far"].concat());
    assert_eq!(far.reason, Reason::LabelTooFar);
    assert_eq!((far.rust_line, far.line, far.labels), (16_387, 16_387, 1));
    let short = zkasm::assemble(b"ecall", &mut [], &mut [0; 35]).unwrap_err();
    assert_eq!(short.reason, Reason::ImageTooShort);
    assert_eq!((short.line, short.needed), (0, Some(36)));
}

#[test]
fn the_largest_image_is_listed() {
    let mut image = vec![0; 131_104];
    let source = b"addi r15, r15, -65536\n".repeat(32_768);
    let answer = zkasm::assemble(&source, &mut [], &mut image).unwrap();
    assert_eq!(answer.words, 32_768);
    let mut text = vec![0; 720_962];
    let length = zkasm::list(&image, &mut text).unwrap();
    assert!(text[..length].ends_with(&source));
}

#[test]
fn images_are_refused_by_opening_and_listing() {
    let cases: &[(Reason, Vec<u8>)] = &[
        (Reason::HeaderCut, vec![]),
        (Reason::HeaderCut, good_image()[..31].to_vec()),
        (Reason::WrongMagic, spoiled(0, 0)),
        (Reason::WrongVersion, spoiled(4, 5)),
        (Reason::LimbBitsRange, spoiled(8, 32)),
        (Reason::LimbBitsOdd, spoiled(8, 17)),
        (Reason::DataLimbsRange, spoiled(9, 0)),
        (Reason::AddrLimbsRange, spoiled(10, 3)),
        (Reason::CodeSize, spoiled(16, 6)),
        (Reason::ImageLength, spoiled(16, 12)),
        (Reason::ImageLength, good_image()[..39].to_vec()),
        (Reason::ImageLength, [good_image(), vec![0]].concat()),
    ];
    for (reason, image) in cases {
        assert_eq!(zkasm::open(image), Err(*reason));
        assert_eq!(listed(image), unlisted(*reason, None, None));
    }
}

fn listed(image: &[u8]) -> Result<usize, ListRefusal> {
    zkasm::list(image, &mut [0; 256])
}

fn unlisted(
    reason: Reason,
    index: Option<usize>,
    needed: Option<usize>,
) -> Result<usize, ListRefusal> {
    Err(ListRefusal {
        reason,
        index,
        needed,
    })
}

#[test]
fn images_are_refused_by_listing_alone() {
    for at in [11, 12, 24, 28] {
        let image = spoiled(at, 1);
        assert!(zkasm::open(&image).is_ok());
        assert_eq!(listed(&image), unlisted(Reason::UnusualHeader, None, None));
    }
    let unknown = unlisted(Reason::UnknownOpcode, Some(1), None);
    assert_eq!(listed(&spoiled(36, 0x7F)), unknown);
    let unused = unlisted(Reason::UnusedBit, Some(0), None);
    assert_eq!(listed(&spoiled(35, 0x80)), unused);
    let length = listed(&good_image()).unwrap();
    let short = unlisted(Reason::TextTooShort, None, Some(length));
    assert_eq!(zkasm::list(&good_image(), &mut []), short);
}

#[test]
fn data_stand_behind_the_code() {
    let mut image = spoiled(20, 3);
    image.extend([7, 8, 9]);
    let opened = zkasm::open(&image).unwrap();
    assert_eq!((opened.code, opened.data), (&image[32..40], &[7, 8, 9][..]));
    assert_eq!(listed(&image), unlisted(Reason::UnusualHeader, None, None));
}
