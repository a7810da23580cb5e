//! Counts of what a run has met.

use std::fmt;

use array_reader::Answer;

use crate::{generate::Family, malformed::Reason, reading::Reading};

const TAGS: usize = 39;
const EXPECTED: usize = 65;

pub struct Tally {
    streams: u64,
    tokens: u64,
    families: [u64; Family::ALL.len()],
    /// By reading, then by number; 7 is told by the calls with too little room.
    numbers: [[u64; 9]; 3],
    /// What the crate reading expected, for numbers 1 and 2.
    expected: [[u64; EXPECTED]; 2],
    tags: [u64; TAGS],
    reasons: [u64; Reason::ALL.len()],
    too_deep_in_crate_only: u64,
    too_deep_in_manual_only: u64,
    too_deep_in_both: u64,
    manual_checked_by_parser: u64,
    full_to_the_word: u64,
}

impl Default for Tally {
    fn default() -> Self {
        Tally {
            streams: 0,
            tokens: 0,
            families: [0; Family::ALL.len()],
            numbers: [[0; 9]; 3],
            expected: [[0; EXPECTED]; 2],
            tags: [0; TAGS],
            reasons: [0; Reason::ALL.len()],
            too_deep_in_crate_only: 0,
            too_deep_in_manual_only: 0,
            too_deep_in_both: 0,
            manual_checked_by_parser: 0,
            full_to_the_word: 0,
        }
    }
}

impl Tally {
    pub fn streams(&self) -> u64 {
        self.streams
    }

    pub fn stream(&mut self, family: Family, stream: &[u64]) {
        self.streams += 1;
        self.tokens += (stream.len() / 4).saturating_sub(1) as u64;
        self.families[family as usize] += 1;
    }

    pub fn answer(&mut self, reading: Reading, answer: &Answer) {
        self.numbers[reading as usize][answer.number as usize] += 1;
        if reading == Reading::Crate && matches!(answer.number, 1 | 2) {
            self.expected[answer.number as usize - 1][answer.expected as usize] += 1;
        }
    }

    pub fn tree(&mut self, tree: &[u64]) {
        for record in tree.chunks_exact(4) {
            self.tags[record[0] as usize] += 1;
        }
    }

    pub fn reason(&mut self, reason: Reason) {
        self.reasons[reason as usize] += 1;
    }

    pub fn depth(&mut self, too_deep_in_crate: bool, too_deep_in_manual: bool) {
        match (too_deep_in_crate, too_deep_in_manual) {
            (true, true) => self.too_deep_in_both += 1,
            (true, false) => self.too_deep_in_crate_only += 1,
            (false, true) => self.too_deep_in_manual_only += 1,
            (false, false) => {}
        }
    }

    pub fn manual_checked_by_parser(&mut self) {
        self.manual_checked_by_parser += 1;
    }

    pub fn full_to_the_word(&mut self) {
        self.full_to_the_word += 1;
    }
}

impl fmt::Display for Tally {
    fn fmt(&self, f: &mut fmt::Formatter) -> fmt::Result {
        writeln!(f, "streams by family:")?;
        for family in Family::ALL {
            writeln!(f, "  {family:?}: {}", self.families[family as usize])?;
        }
        writeln!(f, "tokens in all: {}", self.tokens)?;
        for reading in Reading::ALL {
            writeln!(f, "answers of the {} reading, by number:", reading.name())?;
            met(f, &self.numbers[reading as usize])?;
        }
        writeln!(
            f,
            "quarrels found: {}",
            self.numbers[Reading::Agreed as usize][8]
        )?;
        for number in 1..=2 {
            writeln!(f, "expected, for number {number} of the crate reading:")?;
            met(f, &self.expected[number - 1])?;
        }
        writeln!(f, "tree records of the crate reading, by tag:")?;
        met(f, &self.tags)?;
        writeln!(
            f,
            "too deep: in both readings {}, in the crate reading only {}, in the manual reading only {}",
            self.too_deep_in_both, self.too_deep_in_crate_only, self.too_deep_in_manual_only
        )?;
        writeln!(
            f,
            "manual readings of streams with ~= compared with the parser: {}",
            self.manual_checked_by_parser
        )?;
        writeln!(
            f,
            "node arrays filled to the last word: {}",
            self.full_to_the_word
        )?;
        writeln!(f, "malformed streams, by the first fault:")?;
        for reason in Reason::ALL {
            writeln!(f, "  {reason:?}: {}", self.reasons[reason as usize])?;
        }
        Ok(())
    }
}

/// The numbers that were met, and how often.
fn met(f: &mut fmt::Formatter, counts: &[u64]) -> fmt::Result {
    let met = counts.iter().enumerate().filter(|(_, count)| **count > 0);
    let entries: Vec<String> = met
        .map(|(number, count)| format!("{number}: {count}"))
        .collect();
    for line in entries.chunks(8) {
        writeln!(f, "  {}", line.join(", "))?;
    }
    Ok(())
}
