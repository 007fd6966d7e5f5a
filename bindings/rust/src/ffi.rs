//! The exported functions, with slices for a pointer and a length, and a struct for each array of numbers.

use crate::{Label, Settings};

/// Three numbers of an answer.
#[repr(C)]
#[derive(Default)]
pub struct SettingNumbers {
    limb_bits: u64,
    data_limbs: u64,
    addr_limbs: u64,
}

impl SettingNumbers {
    /// Each is a byte of the image, or of what becomes one.
    pub fn get(&self) -> Settings {
        Settings {
            limb_bits: self.limb_bits as u8,
            data_limbs: self.data_limbs as u8,
            addr_limbs: self.addr_limbs as u8,
        }
    }
}

/// `[u64; 8]` of `zkasm_assemble`.
#[repr(C)]
#[derive(Default)]
pub struct AssembleAnswer {
    pub words: u64,
    pub labels: u64,
    pub settings: SettingNumbers,
    pub rust_line: u64,
    pub line: u64,
    pub needed: u64,
}

/// `[u64; 12]` of `zkasm_open`.
#[repr(C)]
#[derive(Default)]
pub struct OpenAnswer {
    pub magic: u64,
    pub version: u64,
    pub settings: SettingNumbers,
    pub flags: u64,
    pub entry_point: u64,
    pub code_size: u64,
    pub data_size: u64,
    pub bss_size: u64,
    pub stack_size: u64,
    pub code_end: u64,
}

/// `[u64; 3]` of `zkasm_list`.
#[repr(C)]
#[derive(Default)]
pub struct ListAnswer {
    pub length: u64,
    pub index: u64,
    pub needed: u64,
}

extern "C" {
    fn zkasm_assemble(
        source: *const u8,
        source_length: usize,
        table: *mut Label,
        table_length: usize,
        image: *mut u8,
        image_length: usize,
        answer: *mut AssembleAnswer,
    ) -> u32;
    fn zkasm_open(image: *const u8, image_length: usize, answer: *mut OpenAnswer) -> u32;
    fn zkasm_list(
        image: *const u8,
        image_length: usize,
        text: *mut u8,
        text_length: usize,
        answer: *mut ListAnswer,
    ) -> u32;
}

pub fn assemble(source: &[u8], table: &mut [Label], image: &mut [u8]) -> (u32, AssembleAnswer) {
    let mut answer = AssembleAnswer::default();
    // SAFETY: the pointers and lengths are those of slices, which Rust keeps apart, and the answer has the layout of the array.
    let number = unsafe {
        zkasm_assemble(
            source.as_ptr(),
            source.len(),
            table.as_mut_ptr(),
            table.len(),
            image.as_mut_ptr(),
            image.len(),
            &mut answer,
        )
    };
    (number, answer)
}

pub fn open(image: &[u8]) -> (u32, OpenAnswer) {
    let mut answer = OpenAnswer::default();
    // SAFETY: as above.
    let number = unsafe { zkasm_open(image.as_ptr(), image.len(), &mut answer) };
    (number, answer)
}

pub fn list(image: &[u8], text: &mut [u8]) -> (u32, ListAnswer) {
    let mut answer = ListAnswer::default();
    // SAFETY: as above.
    let number = unsafe {
        zkasm_list(
            image.as_ptr(),
            image.len(),
            text.as_mut_ptr(),
            text.len(),
            &mut answer,
        )
    };
    (number, answer)
}
