//! How often each call gave each number.

use std::fmt;

#[derive(Clone, Copy, Debug)]
pub enum Call {
    Assembling,
    Opening,
    Listing,
}

const CALLS: [Call; 3] = [Call::Assembling, Call::Opening, Call::Listing];

impl Call {
    /// The refusals that it has.
    fn has(self, number: usize) -> bool {
        let of_opening = matches!(number, 10..=13 | 24..=28);
        match self {
            Call::Assembling => matches!(number, 1..=23 | 33..=35),
            Call::Opening => of_opening,
            Call::Listing => of_opening || (29..=32).contains(&number),
        }
    }
}

/// For each call how often it was accepted, at 0, and refused by each number.
pub struct Tally([Row; 1 + LAST]);

/// The last refusal's number.
const LAST: usize = 35;

type Row = [u64; CALLS.len()];

impl Default for Tally {
    fn default() -> Self {
        Tally([Row::default(); 1 + LAST])
    }
}

impl Tally {
    pub fn add(&mut self, call: Call, number: u32) {
        self.0[number as usize][call as usize] += 1;
    }

    /// All calls together.
    pub fn calls(&self) -> u64 {
        self.0.as_flattened().iter().sum()
    }

    /// The refusals that no call gave.
    pub fn missed(&self) -> Vec<String> {
        CALLS.map(|call| self.missed_by(call)).concat()
    }

    /// The refusals that a call has and did not give.
    pub fn missed_by(&self, call: Call) -> Vec<String> {
        let none = |number: &usize| call.has(*number) && self.0[*number][call as usize] == 0;
        (1..self.0.len())
            .filter(none)
            .map(|number| format!("{call:?} {number}"))
            .collect()
    }
}

impl fmt::Display for Tally {
    fn fmt(&self, f: &mut fmt::Formatter) -> fmt::Result {
        let mut line =
            |name: &str, [a, b, c]: [String; 3]| writeln!(f, "{name:>6} {a:>11} {b:>11} {c:>11}");
        line(
            "number",
            CALLS.map(|call| format!("{call:?}").to_lowercase()),
        )?;
        let mut all: Row = [0; CALLS.len()];
        for (number, row) in self.0.iter().enumerate() {
            line(&number.to_string(), row.map(|count| count.to_string()))?;
            all = std::array::from_fn(|call| all[call] + row[call]);
        }
        line("all", all.map(|count| count.to_string()))
    }
}
