//! How often each call gave each answer.

use std::collections::BTreeSet;
use std::fmt;

use crate::call::{Call, NAMES};

/// The answers that each call can give, in the order of [`NAMES`].
const POSSIBLE: [&[u32]; 10] = [
    &[0, 2, 3, 14],
    &[0, 2, 3, 14],
    &[0, 4, 14, 15],
    &[0, 4, 9, 11, 12, 13, 14],
    &[0, 4, 14, 15],
    &[0, 4, 10, 11, 12, 14],
    &[0, 4, 14],
    &[0, 2, 14],
    &[0, 14, 15],
    &[0, 4, 14, 15],
];

/// The refusals that node calls can give.
pub const REFUSALS: [u32; 10] = [2, 3, 4, 9, 10, 11, 12, 13, 14, 15];

#[derive(Default)]
pub struct Tally {
    /// By call, then by answer.
    counts: [[u64; 16]; 10],
}

impl Tally {
    pub fn add(&mut self, call: Call, answer: u32) {
        self.counts[call.index()][answer as usize] += 1;
    }

    pub fn calls(&self) -> u64 {
        self.counts.iter().flatten().sum()
    }

    /// How often any call gave this answer.
    pub fn count(&self, answer: u32) -> u64 {
        self.counts.iter().map(|call| call[answer as usize]).sum()
    }

    fn answers(&self, call: usize) -> Vec<u32> {
        let answers = (0u32..).zip(self.counts[call]);
        answers
            .filter(|&(_, count)| count > 0)
            .map(|(answer, _)| answer)
            .collect()
    }

    /// Each call gave every answer that it can give, and no other.
    pub fn assert_complete(&self) {
        for (call, possible) in POSSIBLE.iter().enumerate() {
            assert_eq!(self.answers(call), *possible, "{}:\n{self}", NAMES[call]);
        }
        assert!(REFUSALS.iter().all(|&refusal| self.count(refusal) > 0));
    }

    /// The calls gave these answers, whichever call each, and no other.
    pub fn assert_reached(&self, expected: &[u32]) {
        let reached: BTreeSet<u32> = (0..NAMES.len()).flat_map(|c| self.answers(c)).collect();
        let reached: Vec<u32> = reached.into_iter().collect();
        assert_eq!(reached, expected, "\n{self}");
    }
}

/// A line for each call that was made: `hear: 120 (0), 3 (4), 1 (9)`.
impl fmt::Display for Tally {
    fn fmt(&self, f: &mut fmt::Formatter<'_>) -> fmt::Result {
        for (call, name) in NAMES.iter().enumerate() {
            let counts: Vec<String> = self
                .answers(call)
                .into_iter()
                .map(|answer| format!("{} ({answer})", self.counts[call][answer as usize]))
                .collect();
            if !counts.is_empty() {
                writeln!(f, "{name}: {}", counts.join(", "))?;
            }
        }
        Ok(())
    }
}
