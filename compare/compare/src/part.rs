//! A part of a run: inputs that were made in the same way, and what came of them.

use crate::outcome::Outcome;
use crate::tally::{Difference, Tally};
use std::collections::BTreeMap;

#[derive(Default)]
pub struct Part {
    pub name: String,
    /// By both, and alike.
    pub answered: u64,
    /// By both.
    pub refused: u64,
    pub known: BTreeMap<&'static str, Tally>,
    pub differ: Tally,
}

impl Part {
    pub fn new(name: &str) -> Part {
        Part {
            name: name.to_string(),
            ..Part::default()
        }
    }

    pub fn count(&mut self, outcome: Outcome, question: impl FnOnce() -> String) {
        match outcome {
            Outcome::Answered => self.answered += 1,
            Outcome::Refused => self.refused += 1,
            Outcome::Differs { known, rust, ours } => {
                let tally = match known {
                    Some(departure) => self.known.entry(departure).or_default(),
                    None => &mut self.differ,
                };
                tally.push(Difference::new(question(), rust, ours));
            }
        }
    }

    pub fn add(&mut self, other: Part) {
        self.answered += other.answered;
        self.refused += other.refused;
        self.differ.add(other.differ);
        for (departure, tally) in other.known {
            self.known.entry(departure).or_default().add(tally);
        }
    }

    pub fn known(&self) -> u64 {
        self.known.values().map(|tally| tally.count).sum()
    }

    pub fn inputs(&self) -> u64 {
        self.answered + self.refused + self.known() + self.differ.count
    }
}
