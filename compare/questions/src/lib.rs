//! The questions that the recorder and the comparison put to both sides, and how the Rust is asked them: where the fields of
//! a layout stand, every boundary of words, instants and composites, and random ones from a seeded generator.

pub mod calendar;
pub mod composites;
pub mod counts;
pub mod line;
pub mod rows;
pub mod rust_side;
#[path = "../../splitmix.rs"]
pub mod splitmix;
pub mod words;

use std::collections::HashSet;
use std::hash::Hash;

/// Without those that came before.
pub fn once<Q: Clone + Eq + Hash>(questions: Vec<Q>) -> Vec<Q> {
    let mut seen = HashSet::new();
    questions
        .into_iter()
        .filter(|question| seen.insert(question.clone()))
        .collect()
}
