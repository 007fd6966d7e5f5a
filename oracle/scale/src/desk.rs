//! Asks the library through one of its interfaces, and compares all that a call leaves behind with
//! what the oracle says.

use oracle::model::{self, NotListed, HEADER, MAGIC, VERSION};
use oracle::{Answer, Asked, MOST_SOURCE_BYTES, MOST_WORDS};
use zkasm::Label;

use crate::interface::{Interface, Told};
use crate::lent::{Lent, Place};
use crate::tally::{Call, Tally};

/// What differs.
pub type Difference = String;

/// No source has more labels, no image and no text more bytes.
pub const MOST_LABELS: usize = MOST_SOURCE_BYTES / 2;
pub const MOST_IMAGE: usize = HEADER + 4 * MOST_WORDS;
pub const MOST_TEXT: usize = 720_962;

/// This much more than the most is lent at times.
const MORE: usize = 1024;

pub struct Desk<I> {
    pub interface: I,
    input: Lent<u8>,
    table: Lent<Label>,
    image: Lent<u8>,
    text: Lent<u8>,
    /// Where the input, the table, and the image or text are lent.
    pub places: [Place; 3],
    pub tally: Tally,
}

impl<I: Interface> Desk<I> {
    pub fn new(interface: I) -> Self {
        Desk {
            interface,
            input: Lent::new(MOST_SOURCE_BYTES + MORE, byte_of),
            table: Lent::new(MOST_LABELS + MORE, label_of),
            image: Lent::new(MOST_IMAGE + MORE, byte_of),
            text: Lent::new(MOST_TEXT + MORE, byte_of),
            places: [Place::Middle; 3],
            tally: Tally::default(),
        }
    }

    /// Assembling, with a table and an image buffer of these lengths. Answers what both answer.
    pub fn assemble(
        &mut self,
        asked: &Asked,
        table: usize,
        room: usize,
    ) -> Result<Answer, Difference> {
        let expected = asked.within(table, room);
        let input = self.input.write(self.places[0], asked.source());
        let entries = self.table.range(self.places[1], table);
        let bytes = self.image.range(self.places[2], room);
        let told = self.interface.assemble(
            self.input.part(&input),
            self.table.part(&entries),
            self.image.part(&bytes),
        );
        let parts = [
            ("source", self.input.holds(&input, asked.source())),
            ("table", self.table.holds(&entries, &labels_of(&expected))),
            ("image", self.image.holds(&bytes, image_of(&expected))),
        ];
        self.input.restore(&input);
        self.table.restore(&entries);
        self.image.restore(&bytes);
        self.settle(Call::Assembling, told, assembled(&expected), &parts)?;
        Ok(expected)
    }

    /// Opening.
    pub fn open(&mut self, image: &[u8]) -> Result<(), Difference> {
        let input = self.input.write(self.places[0], image);
        let told = self.interface.open(self.input.part(&input));
        let parts = [("image", self.input.holds(&input, image))];
        self.input.restore(&input);
        self.settle(Call::Opening, told, opened(image), &parts)
    }

    /// Listing, with a text buffer of this length. Answers the text, if it is listed.
    pub fn list(&mut self, image: &[u8], room: usize) -> Result<Option<String>, Difference> {
        let expected = model::list(image, room);
        let text = expected.as_ref().map_or("", String::as_str);
        let input = self.input.write(self.places[0], image);
        let bytes = self.text.range(self.places[2], room);
        let told = self
            .interface
            .list(self.input.part(&input), self.text.part(&bytes));
        let parts = [
            ("image", self.input.holds(&input, image)),
            ("text", self.text.holds(&bytes, text.as_bytes())),
        ];
        self.input.restore(&input);
        self.text.restore(&bytes);
        self.settle(Call::Listing, told, listed(&expected), &parts)?;
        Ok(expected.ok())
    }

    /// Opening and listing, with a text buffer of the length that `room` makes of the text's; and
    /// the listed text, assembled again, gives the image.
    pub fn look_into(
        &mut self,
        image: &[u8],
        room: impl FnOnce(usize) -> usize,
    ) -> Result<(), Difference> {
        self.open(image)?;
        let length = match model::list(image, usize::MAX) {
            Ok(text) => text.len(),
            Err(_) => 0,
        };
        let Some(text) = self.list(image, room(length))? else {
            return Ok(());
        };
        let again = self.assemble(&Asked::new(text.as_bytes()), 0, image.len())?;
        match image_of(&again) == image {
            true => Ok(()),
            false => Err("the listing is assembled to another image".to_string()),
        }
    }

    /// Compares the numbers, and names the first part of memory that is not as it should be.
    fn settle<const N: usize>(
        &mut self,
        call: Call,
        told: Told<N>,
        expected: Told<N>,
        parts: &[(&str, bool)],
    ) -> Result<(), Difference> {
        if told != expected {
            return Err(format!(
                "{call:?}: the library tells {told:?}, the oracle {expected:?}"
            ));
        }
        if let Some((part, _)) = parts.iter().find(|(_, same)| !same) {
            return Err(format!(
                "{call:?}, {told:?}: the {part}, or what stands about it, differs"
            ));
        }
        self.tally.add(call, told.0);
        Ok(())
    }

    /// Whether all memory lent is as it was, far from the parts lent too.
    pub fn is_restored(&self) -> bool {
        let bytes = [&self.input, &self.image, &self.text];
        bytes.into_iter().all(Lent::is_restored) && self.table.is_restored()
    }
}

/// Neighbours differ, and so do bytes a page apart.
fn byte_of(place: usize) -> u8 {
    (place * 37 + place / 4096 * 11 + 5) as u8
}

/// No source has such a label.
fn label_of(place: usize) -> Label {
    Label {
        start: usize::MAX - place,
        length: usize::MAX / 3 + place,
        address: !(place as u64 * 7),
    }
}

/// The entries and the bytes that suffice for a source.
pub fn enough(asked: &Asked) -> (usize, usize) {
    let answer = asked.unlimited();
    // A refused source gets room for an image too.
    (answer.labels().len(), image_of(answer).len().max(HEADER))
}

fn image_of(answer: &Answer) -> &[u8] {
    match answer {
        Answer::Accepted { image, .. } => image,
        Answer::Refused { .. } => &[],
    }
}

fn labels_of(answer: &Answer) -> Vec<Label> {
    let label = |label: &oracle::Label| Label {
        start: label.start,
        length: label.length,
        address: label.address,
    };
    answer.labels().iter().map(label).collect()
}

/// What the library should tell of a source.
fn assembled(answer: &Answer) -> Told<8> {
    let labels = answer.labels().len();
    let (number, numbers) = match answer {
        Answer::Accepted {
            words, settings, ..
        } => {
            let settings = [settings.limb_bits, settings.data_limbs, settings.addr_limbs];
            let [bits, data, addr] = settings.map(usize::from);
            (0, [*words, labels, bits, data, addr, 0, 0, 0])
        }
        Answer::Refused {
            number,
            rust_line,
            true_line,
            needed,
            ..
        } => (
            *number,
            [0, labels, 0, 0, 0, *rust_line, *true_line, *needed],
        ),
    };
    (number, numbers.map(|number| number as u64))
}

/// What the library should tell of an image's header.
fn opened(image: &[u8]) -> Told<12> {
    let opened = match model::open(image) {
        Ok(opened) => opened,
        Err(number) => return (number, [0; 12]),
    };
    let answer = [
        MAGIC.into(),
        VERSION.into(),
        opened.limb_bits.into(),
        opened.data_limbs.into(),
        opened.addr_limbs.into(),
        opened.flags.into(),
        opened.entry.into(),
        opened.code_size.into(),
        opened.data_size.into(),
        opened.bss.into(),
        opened.stack.into(),
        HEADER as u64 + u64::from(opened.code_size),
    ];
    (0, answer)
}

/// What the library should tell of a listing.
fn listed(listed: &Result<String, NotListed>) -> Told<3> {
    let (number, numbers) = match listed {
        Ok(text) => (0, [text.len(), 0, 0]),
        Err(refusal) => (refusal.number, [0, refusal.index, refusal.needed]),
    };
    (number, numbers.map(|number| number as u64))
}

#[cfg(test)]
mod tests {
    use super::*;
    use crate::interface::Crate;

    /// One thing that is wrong in what a call leaves.
    type Fault = fn(&mut Told<8>, &mut [u8]);

    /// The library with a fault.
    struct Off(Fault);

    impl Interface for Off {
        fn assemble(&mut self, source: &[u8], table: &mut [Label], image: &mut [u8]) -> Told<8> {
            let mut told = Crate.assemble(source, table, image);
            self.0(&mut told, image);
            told
        }

        fn open(&mut self, image: &[u8]) -> Told<12> {
            Crate.open(image)
        }

        fn list(&mut self, image: &[u8], text: &mut [u8]) -> Told<3> {
            Crate.list(image, text)
        }
    }

    /// The image's last word has a number that is greater by 4.
    fn four_more(told: &mut Told<8>, image: &mut [u8]) {
        let at = HEADER + 4 * (told.1[0] as usize - 1);
        let word = u32::from_le_bytes(image[at..at + 4].try_into().expect("a word"));
        // The number of a branch begins at bit 15.
        image[at..at + 4].copy_from_slice(&word.wrapping_add(4 << 15).to_le_bytes());
    }

    #[test]
    fn a_wrong_distance_is_noticed() {
        for source in ["x: beq r1, r2, x", "ecall\nx: ecall\nbgeu r1, r2, x"] {
            let asked = Asked::new(source.as_bytes());
            let (labels, length) = enough(&asked);
            assert!(Desk::new(Crate).assemble(&asked, labels, length).is_ok());
            let difference = Desk::new(Off(four_more)).assemble(&asked, labels, length);
            assert!(difference.is_err_and(|text| text.contains("the image")));
        }
    }

    /// As if a number's range were tested before the operands to its left, after those to its right, or
    /// after a setting's key, or as if it had no line or were seen before its label.
    #[test]
    fn a_wrong_refusal_of_a_number_is_noticed() {
        let faults: [(&str, Fault); 6] = [
            ("addi r1, x, 70000", |told, _| told.0 = 35),
            ("lw r1, 70000, r2)", |told, _| told.0 = 20),
            (".config foo 256", |told, _| told.0 = 9),
            (".config r1 256", |told, _| told.0 = 35),
            ("x: addi r1, r0, 70000", |told, _| told.1[1] = 0),
            ("slli r1, r2, 300", |told, _| told.1[5] = 0),
        ];
        for (source, fault) in faults {
            let asked = Asked::new(source.as_bytes());
            let (labels, length) = enough(&asked);
            assert!(Desk::new(Crate).assemble(&asked, labels, length).is_ok());
            let difference = Desk::new(Off(fault)).assemble(&asked, labels, length);
            assert!(difference.is_err_and(|text| text.contains("the oracle")));
        }
    }
}
