//! The library's two interfaces, told alike: the number returned and the fields of the answer, in
//! the order of `bindings/c/zkasm.h`.

use std::ffi::c_uint;

use zkasm::{Label, Settings};

use crate::lent::{Lent, Place};

/// What a call returns, and its answer.
pub type Told<const N: usize> = (u32, [u64; N]);

pub trait Interface {
    fn assemble(&mut self, source: &[u8], table: &mut [Label], image: &mut [u8]) -> Told<8>;
    fn open(&mut self, image: &[u8]) -> Told<12>;
    fn list(&mut self, image: &[u8], text: &mut [u8]) -> Told<3>;
}

/// The crate of `bindings/rust`. Fields that say nothing it keeps to itself; they are told as 0.
pub struct Crate;

impl Interface for Crate {
    fn assemble(&mut self, source: &[u8], table: &mut [Label], image: &mut [u8]) -> Told<8> {
        match zkasm::assemble(source, table, image) {
            Ok(answer) => {
                let [bits, data, addr] = settings(answer.settings);
                let (words, labels) = (answer.words as u64, answer.labels as u64);
                (0, [words, labels, bits, data, addr, 0, 0, 0])
            }
            Err(refusal) => {
                let lines = [refusal.rust_line, refusal.line].map(|line| line as u64);
                let (labels, needed) = (refusal.labels as u64, or_0(refusal.needed));
                let answer = [0, labels, 0, 0, 0, lines[0], lines[1], needed];
                (refusal.reason.number(), answer)
            }
        }
    }

    fn open(&mut self, image: &[u8]) -> Told<12> {
        match zkasm::open(image) {
            Ok(opened) => {
                let [bits, data, addr] = settings(opened.settings);
                let code_end = opened.data.as_ptr() as usize - image.as_ptr() as usize;
                let answer = [
                    opened.magic.into(),
                    opened.version.into(),
                    bits,
                    data,
                    addr,
                    opened.flags.into(),
                    opened.entry_point.into(),
                    opened.code.len() as u64,
                    opened.data.len() as u64,
                    opened.bss_size.into(),
                    opened.stack_size.into(),
                    code_end as u64,
                ];
                (0, answer)
            }
            Err(reason) => (reason.number(), [0; 12]),
        }
    }

    fn list(&mut self, image: &[u8], text: &mut [u8]) -> Told<3> {
        match zkasm::list(image, text) {
            Ok(length) => (0, [length as u64, 0, 0]),
            Err(refusal) => {
                let answer = [0, or_0(refusal.index), or_0(refusal.needed)];
                (refusal.reason.number(), answer)
            }
        }
    }
}

fn settings(settings: Settings) -> [u64; 3] {
    [settings.limb_bits, settings.data_limbs, settings.addr_limbs].map(u64::from)
}

fn or_0(number: Option<usize>) -> u64 {
    number.unwrap_or(0) as u64
}

extern "C" {
    fn zkasm_assemble(
        source: *const u8,
        source_length: usize,
        table: *mut Label,
        table_length: usize,
        image: *mut u8,
        image_length: usize,
        answer: *mut u64,
    ) -> c_uint;
    fn zkasm_open(image: *const u8, image_length: usize, answer: *mut u64) -> c_uint;
    fn zkasm_list(
        image: *const u8,
        image_length: usize,
        text: *mut u8,
        text_length: usize,
        answer: *mut u64,
    ) -> c_uint;
}

/// The exported functions themselves. Their answers are lent like every other buffer.
pub struct Exported {
    answer: Lent<u64>,
    /// Where the next answer is lent.
    place: Place,
}

impl Default for Exported {
    fn default() -> Self {
        Exported {
            answer: Lent::new(1, |place| !(place as u64)),
            place: Place::Front,
        }
    }
}

impl Exported {
    /// Calls with memory for an answer of N fields, at one end and the other in turn.
    fn answered<const N: usize>(&mut self, call: impl FnOnce(*mut u64) -> u32) -> Told<N> {
        self.place = match self.place {
            Place::Front => Place::Back,
            _ => Place::Front,
        };
        let part = self.answer.range(self.place, N);
        let number = call(self.answer.part(&part).as_mut_ptr());
        let mut answer = [0; N];
        answer.copy_from_slice(self.answer.part(&part));
        assert!(
            self.answer.holds(&part, &answer),
            "the answer's neighbours changed"
        );
        self.answer.restore(&part);
        (number, answer)
    }
}

// SAFETY, of each call: the pointers and lengths are those of slices, which Rust keeps apart, and
// the answer has as many fields as the header says.
impl Interface for Exported {
    fn assemble(&mut self, source: &[u8], table: &mut [Label], image: &mut [u8]) -> Told<8> {
        let (entries, bytes) = (table.as_mut_ptr(), image.as_mut_ptr());
        self.answered(|answer| unsafe {
            zkasm_assemble(
                source.as_ptr(),
                source.len(),
                entries,
                table.len(),
                bytes,
                image.len(),
                answer,
            )
        })
    }

    fn open(&mut self, image: &[u8]) -> Told<12> {
        self.answered(|answer| unsafe { zkasm_open(image.as_ptr(), image.len(), answer) })
    }

    fn list(&mut self, image: &[u8], text: &mut [u8]) -> Told<3> {
        let bytes = text.as_mut_ptr();
        self.answered(|answer| unsafe {
            zkasm_list(image.as_ptr(), image.len(), bytes, text.len(), answer)
        })
    }
}
