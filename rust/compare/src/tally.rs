//! Counts of outcomes.

use crate::case::{Case, Outcome, Source};
use crate::rule::Rule;

#[derive(Debug, Clone, Default)]
pub struct Tally {
    pub cases: u64,
    pub accepted: u64,
    /// Refusals 1 to 8.
    pub refused: [u64; 8],
    /// The reader's error is set after the call.
    pub error: u64,
    pub rules: [u64; Rule::ALL.len()],
    /// Cases and accepted ones by the way they were made.
    pub sources: [[u64; 2]; Source::ALL.len()],
}

impl Tally {
    pub fn count(&mut self, case: &Case, source: Source, outcome: &Outcome) {
        let accepted = if case.kind.has_answer() {
            outcome.answer == 0
        } else {
            !outcome.place.error
        };
        self.cases += 1;
        if accepted {
            self.accepted += 1;
        } else if case.kind.has_answer() {
            self.refused[outcome.answer as usize - 1] += 1;
        }
        self.error += u64::from(outcome.place.error);
        if let Some(rule) = outcome.rule {
            self.rules[rule as usize] += 1;
        }
        let by_source = &mut self.sources[source as usize];
        by_source[0] += 1;
        by_source[1] += u64::from(accepted);
    }

    pub fn add(&mut self, other: &Self) {
        self.cases += other.cases;
        self.accepted += other.accepted;
        self.error += other.error;
        for (sum, n) in self.refused.iter_mut().zip(other.refused) {
            *sum += n;
        }
        for (sum, n) in self.rules.iter_mut().zip(other.rules) {
            *sum += n;
        }
        for (sum, n) in self.sources.iter_mut().zip(other.sources) {
            sum[0] += n[0];
            sum[1] += n[1];
        }
    }

    pub fn known(&self) -> u64 {
        self.rules.iter().sum()
    }
}
