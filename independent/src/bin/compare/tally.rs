//! Counts what was compared, prints the differences and the summary.

use std::collections::BTreeMap;

const MOST_PRINTED: u64 = 10;

#[derive(Default)]
pub struct Tally {
    outcomes: BTreeMap<String, u64>,
    kinds: BTreeMap<String, u64>,
    as_expected: u64,
    not_expected: u64,
}

impl Tally {
    pub fn kind(&mut self, kind: String) {
        *self.kinds.entry(kind).or_default() += 1;
    }

    pub fn outcome(&mut self, outcome: String) {
        *self.outcomes.entry(outcome).or_default() += 1;
    }

    /// Counts what the lines of a report or of a transcript say, but for the rows.
    pub fn outcomes_of(&mut self, text: &[u8]) {
        for line in String::from_utf8_lossy(text).lines() {
            let words: Vec<&str> = line.split(' ').collect();
            match words[..] {
                ["SHEET", _, _, _, "FAIL", _, limit] => self.outcome(format!("SHEET FAIL {limit}")),
                ["SHEET", _, _, _, verdict] => self.outcome(format!("SHEET {verdict}")),
                ["REFUSED" | "DENIED", number, ..] => {
                    self.outcome(format!("{} {number}", words[0]));
                }
                ["ON" | "OUT", ..] => self.outcome(line.to_string()),
                [word, ..] if word.starts_with(|first: char| first.is_ascii_uppercase()) => {
                    self.outcome(word.to_string());
                }
                _ => (),
            }
        }
    }

    pub fn agreed(&mut self) {
        self.as_expected += 1;
    }

    pub fn differed(&mut self, what: &str, here: &str, there: &str) {
        self.not_expected += 1;
        if self.not_expected <= MOST_PRINTED {
            println!("DIFFERENCE {what}\n--- this implementation\n{here}\n--- the proved program");
            println!("{there}\n---");
        }
    }

    /// Counts each outcome that never came as not expected.
    pub fn require(&mut self, outcomes: &[&str]) {
        for outcome in outcomes {
            if !self.outcomes.contains_key(*outcome) {
                println!("NEVER CAME: {outcome}");
                self.not_expected += 1;
            }
        }
    }

    /// Prints the summary and tells whether all is as expected.
    pub fn finish(&self) -> bool {
        for (kind, count) in &self.kinds {
            println!("kind {kind}: {count}");
        }
        for (outcome, count) in &self.outcomes {
            println!("outcome {outcome}: {count}");
        }
        println!(
            "{} as expected, {} not",
            self.as_expected, self.not_expected
        );
        self.not_expected == 0
    }
}
