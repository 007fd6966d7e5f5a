//! Buffers of every length about the one that suffices, lent from the middle of larger ones: what is written, and what keeps its value.

use std::mem::{align_of, offset_of, size_of};
use zkasm::{Label, Reason};

const SOURCE: &[u8] = b"  first: addi a0, zero, 1\nlast: ecall # two labels, two words\n";
const LABELS: [Label; 2] = [
    Label {
        start: 2,
        length: 5,
        address: 0x1000,
    },
    Label {
        start: 26,
        length: 4,
        address: 0x1004,
    },
];
const IMAGE: usize = 40;
const GUARD: usize = 16;

/// A buffer with guards on both sides; each byte depends on its place.
fn bytes(length: usize) -> Vec<u8> {
    (0..length + 2 * GUARD)
        .map(|i| (i * 37 + 11) as u8)
        .collect()
}

/// A table with guards on both sides; no entry is one that a source has.
fn entries(length: usize) -> Vec<Label> {
    let entry = |i| Label {
        start: usize::MAX - i,
        length: usize::MAX,
        address: u64::MAX,
    };
    (0..length + 2 * GUARD).map(entry).collect()
}

/// A buffer over whose middle something is written from the middle's first place on.
fn over<T: Clone>(mut buffer: Vec<T>, written: &[T]) -> Vec<T> {
    buffer[GUARD..GUARD + written.len()].clone_from_slice(written);
    buffer
}

/// The image of SOURCE, and its text.
fn expected() -> (Vec<u8>, Vec<u8>) {
    let mut image = vec![0; IMAGE];
    zkasm::assemble(SOURCE, &mut [Label::default(); 2], &mut image).unwrap();
    let text = b".config limb_bits 20\n.config data_limbs 2\n.config addr_limbs 2\naddi r11, r0, 1\necall\n";
    (image, text.to_vec())
}

#[test]
fn a_label_lies_in_memory_as_it_is_declared() {
    assert_eq!((size_of::<Label>(), align_of::<Label>()), (24, 8));
    assert_eq!(offset_of!(Label, start), 0);
    assert_eq!(offset_of!(Label, length), 8);
    assert_eq!(offset_of!(Label, address), 16);
    // and the library takes it so: three different values
    let mut table = [Label::default(); 2];
    zkasm::assemble(SOURCE, &mut table, &mut [0; IMAGE]).unwrap();
    assert_eq!(table, LABELS);
}

#[test]
fn assembling_writes_what_fits_and_nothing_else() {
    let (image, _) = expected();
    for room in 0..=LABELS.len() + 1 {
        for size in [0, 1, 31, 32, IMAGE - 1, IMAGE, IMAGE + 1, 100] {
            let mut table = entries(room);
            let mut buffer = bytes(size);
            let answer = zkasm::assemble(
                SOURCE,
                &mut table[GUARD..GUARD + room],
                &mut buffer[GUARD..GUARD + size],
            );
            let entered = room.min(LABELS.len());
            assert_eq!(table, over(entries(room), &LABELS[..entered]));
            if entered == LABELS.len() && IMAGE <= size {
                let answer = answer.unwrap();
                assert_eq!((answer.words, answer.labels), (2, 2));
                assert_eq!(buffer, over(bytes(size), &image));
                continue;
            }
            let refusal = answer.unwrap_err();
            assert_eq!(buffer, bytes(size));
            assert_eq!(refusal.labels, entered);
            if entered < LABELS.len() {
                assert_eq!(
                    (refusal.reason, refusal.line),
                    (Reason::TableFull, room + 1)
                );
            } else {
                let needed = (refusal.reason, refusal.needed);
                assert_eq!(needed, (Reason::ImageTooShort, Some(IMAGE)));
            }
        }
    }
}

#[test]
fn listing_writes_what_fits_and_nothing_else() {
    let (image, text) = expected();
    for size in [0, 1, text.len() - 1, text.len(), text.len() + 1, 200] {
        let mut buffer = bytes(size);
        let answer = zkasm::list(&image, &mut buffer[GUARD..GUARD + size]);
        if text.len() <= size {
            assert_eq!(answer, Ok(text.len()));
            assert_eq!(buffer, over(bytes(size), &text));
        } else {
            let refusal = answer.unwrap_err();
            let needed = (refusal.reason, refusal.needed);
            assert_eq!(needed, (Reason::TextTooShort, Some(text.len())));
            assert_eq!(buffer, bytes(size));
        }
    }
}

#[test]
fn an_image_is_opened_at_its_own_length_alone() {
    let (image, _) = expected();
    let longer = [image.clone(), vec![0]].concat();
    for size in 0..=longer.len() {
        let reason = match size {
            IMAGE => None,
            0..=31 => Some(Reason::HeaderCut),
            _ => Some(Reason::ImageLength),
        };
        assert_eq!(zkasm::open(&longer[..size]).err(), reason);
        let mut buffer = bytes(200);
        let listed = zkasm::list(&longer[..size], &mut buffer[GUARD..GUARD + 200]);
        assert_eq!(listed.err().map(|refusal| refusal.reason), reason);
        assert_eq!(buffer == bytes(200), reason.is_some());
    }
}
