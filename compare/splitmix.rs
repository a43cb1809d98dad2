//! The seeded generator: Steele, Lea and Flood's SplitMix64. The same seed gives the same numbers on every machine.

pub struct SplitMix {
    state: u64,
}

impl SplitMix {
    pub fn new(seed: u64) -> SplitMix {
        SplitMix { state: seed }
    }

    fn next(&mut self) -> u64 {
        self.state = self.state.wrapping_add(0x9E37_79B9_7F4A_7C15);
        let mut mixed = self.state;
        mixed = (mixed ^ (mixed >> 30)).wrapping_mul(0xBF58_476D_1CE4_E5B9);
        mixed = (mixed ^ (mixed >> 27)).wrapping_mul(0x94D0_49BB_1331_11EB);
        mixed ^ (mixed >> 31)
    }

    /// A number from 0 up to and without `end`.
    pub fn below(&mut self, end: u64) -> u64 {
        ((u128::from(self.next()) * u128::from(end)) >> 64) as u64
    }

    /// A number from `first` to `last`, both included.
    pub fn between(&mut self, first: i64, last: i64) -> i64 {
        first + self.below((last - first) as u64 + 1) as i64
    }

    pub fn coin(&mut self) -> bool {
        self.below(2) == 0
    }

    /// A number whose highest set bit is bit `length - 1`; 0 for length 0.
    pub fn of_bit_length(&mut self, length: u32) -> u64 {
        match length {
            0 => 0,
            _ => (self.next() | 1 << 63) >> (64 - length),
        }
    }

    /// A number of that many bits, at most 63, or its complement.
    pub fn either_sign(&mut self, length: u32) -> i64 {
        let number = self.of_bit_length(length) as i64;
        if self.coin() {
            number
        } else {
            !number
        }
    }

    /// A number of a random bit length, of either sign.
    pub fn of_any_length(&mut self) -> i64 {
        let length = self.below(64) as u32;
        self.either_sign(length)
    }
}
