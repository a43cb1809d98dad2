//! A stopwatch that keeps the shortest time.

use crate::rows::ROWS;
use std::hint::black_box;
use std::time::{Duration, Instant};

pub struct Best(Duration);

impl Best {
    pub fn new() -> Best {
        Best(Duration::MAX)
    }

    /// Times one more call.
    pub fn time<T>(&mut self, call: impl FnOnce() -> T) {
        let start = Instant::now();
        black_box(call());
        self.0 = self.0.min(start.elapsed());
    }

    /// Nanoseconds a row, of the shortest time.
    pub fn a_row(&self) -> f64 {
        self.0.as_nanos() as f64 / ROWS as f64
    }
}
