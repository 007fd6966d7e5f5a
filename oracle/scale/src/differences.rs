//! The differences found, the first ones shown.

use oracle::list::escape;

const SHOWN: u64 = 10;

/// This much of an input is shown.
const BYTES: usize = 2000;

#[derive(Default)]
pub struct Differences(u64);

impl Differences {
    /// What differs for an input of a kind, made from a seed.
    pub fn add(&mut self, kind: &str, seed: u64, input: &[u8], difference: &str) {
        self.0 += 1;
        if self.0 <= SHOWN {
            let mut shown = String::new();
            escape(&mut shown, &input[..input.len().min(BYTES)]);
            println!("{kind}, seed {seed}: {difference}\n  {shown}");
        }
    }

    pub fn count(&self) -> u64 {
        self.0
    }
}
