//! What comes of asking both sides the same.

pub enum Outcome {
    /// Both answer, and the answers are equal.
    Answered,
    /// Both refuse.
    Refused,
    /// `known` names the departure where docs/DIFFERENCES.md has it.
    Differs {
        known: Option<&'static str>,
        rust: String,
        ours: String,
    },
}
