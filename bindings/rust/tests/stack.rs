//! What the header says of the stack: threads with no more than that make every call.

use std::thread;
use zkasm::Label;

/// The stack of such a thread, with what the thread takes for itself.
const STACK: usize = 32 << 10;

/// A source with lines of all kinds, and many labels; its last line as given.
fn source(bytes: usize, last: &str) -> Vec<u8> {
    let mut source = b".config limb_bits 20\n.text\n".to_vec();
    for number in 0.. {
        let line = format!("l{number}: sw a1, -4(sp) # a store to the stack\nm{number}:\nbne a0, zero, l{number}\n");
        if source.len() + line.len() + last.len() > bytes {
            break;
        }
        source.extend(line.into_bytes());
    }
    source.resize(bytes - last.len(), b'\n');
    source.extend(last.as_bytes());
    source
}

/// Assembles a source that is accepted and one that is refused at its end, and opens and lists the image.
fn every_call(bytes: usize) -> impl FnOnce() {
    let [good, bad] = ["ecall", "add a5, r1, r1"].map(|last| source(bytes, last));
    let mut table = vec![Label::default(); bytes / 2];
    let [mut image, mut text] = [vec![0; 131_104], vec![0; 720_962]];
    move || {
        let words = zkasm::assemble(&good, &mut table, &mut image)
            .unwrap()
            .words;
        let image = &mut image[..32 + 4 * words];
        assert!(zkasm::assemble(&bad, &mut table, image).is_err());
        assert_eq!(zkasm::open(image).unwrap().code.len(), 4 * words);
        assert!(zkasm::list(image, &mut text).unwrap() > words);
    }
}

#[test]
fn a_call_takes_at_most_32_kb() {
    for bytes in [1_000, 65_536, 1_048_576] {
        let thread = thread::Builder::new().stack_size(STACK);
        thread.spawn(every_call(bytes)).unwrap().join().unwrap();
    }
}
