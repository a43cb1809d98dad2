//! Differences, counted, and the smallest of them kept.

/// How many are kept.
const KEPT: usize = 10;

#[derive(Default)]
pub struct Tally {
    pub count: u64,
    /// In order, and each question once.
    pub smallest: Vec<Difference>,
}

/// Ordered by the question: a shorter text is smaller.
#[derive(PartialEq, Eq, PartialOrd, Ord)]
pub struct Difference {
    length: usize,
    pub question: String,
    pub rust: String,
    pub ours: String,
}

impl Difference {
    pub fn new(question: String, rust: String, ours: String) -> Difference {
        Difference {
            length: question.len(),
            question,
            rust,
            ours,
        }
    }
}

impl Tally {
    pub fn push(&mut self, difference: Difference) {
        self.add(Tally {
            count: 1,
            smallest: vec![difference],
        });
    }

    pub fn add(&mut self, other: Tally) {
        self.count += other.count;
        self.smallest.extend(other.smallest);
        self.smallest.sort();
        self.smallest
            .dedup_by(|one, other| one.question == other.question);
        self.smallest.truncate(KEPT);
    }
}
