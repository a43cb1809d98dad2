//! Where the fields of layouts 1 to 14 stand, as document 01's table has it: for making questions, and the years column for
//! the rules.

use std::ops::RangeInclusive;

pub const NUMBERS: RangeInclusive<i64> = 1..=16;

/// Year, month, day, hour, minute and second.
pub type Civil = [i64; 6];

const YEAR: usize = 0;
pub const MONTH: usize = 1;
const SECOND: usize = 5;

/// The good values of the fields but the year.
const GOOD: [RangeInclusive<i64>; 6] = [0..=0, 1..=12, 1..=31, 0..=23, 0..=59, 0..=59];

/// How a field's number is stored.
enum Digits {
    Bits,
    /// Two decimal digits; places count pairs.
    Pairs,
    SwappedPairs,
    /// The tens are the low nibble.
    SemiOctets,
}

enum Order {
    Straight,
    /// The low four bytes are reversed.
    Reversed,
    /// The year's two bytes, from bit 40 on, are exchanged.
    YearSwapped,
}

pub struct Layout {
    /// The encoder's years. The first is stored as 0.
    pub years: RangeInclusive<i64>,
    digits: Digits,
    order: Order,
    /// Place and width of each field, from the year on; three layouts have no second.
    places: &'static [(u32, u32)],
    /// Place and width of what is no civil field: the weekday of 3, the filler of 12, the zone of 14.
    extra: Option<(u32, u32)>,
    /// What the month is stored less.
    month: i64,
    /// The seconds that one stored second stands for.
    step: i64,
}

impl Layout {
    pub fn of(number: i64) -> Layout {
        match number {
            1 | 2 => Layout {
                step: 2,
                ..bits(
                    1980..=2107,
                    &[(25, 7), (21, 4), (16, 5), (11, 5), (5, 6), (0, 5)],
                )
            },
            3 => Layout {
                extra: Some((29, 3)),
                ..bits(1900..=2411, &[(20, 9), (16, 4), (11, 5), (6, 5), (0, 6)])
            },
            4 => Layout {
                order: Order::Reversed,
                ..bits(0..=4095, &[(20, 12), (16, 4), (11, 5), (6, 5), (0, 6)])
            },
            5 => bits(0..=9999, &[(20, 43), (16, 4), (11, 5), (6, 5), (0, 6)]),
            6 => Layout {
                digits: Digits::Pairs,
                ..bits(2000..=2099, &PAIRS)
            },
            7 => bits(1970..=2225, &SIX_BYTES),
            8 => Layout {
                month: 1,
                ..bits(1970..=2225, &SIX_BYTES)
            },
            9 => bits(
                2000..=2063,
                &[(26, 6), (22, 4), (17, 5), (12, 5), (6, 6), (0, 6)],
            ),
            10 => bits(0..=9999, &SEVEN_BYTES),
            11 => Layout {
                order: Order::YearSwapped,
                ..bits(0..=9999, &SEVEN_BYTES)
            },
            12 => Layout {
                extra: Some((0, 16)),
                ..bits(
                    1900..=2155,
                    &[(16, 8), (24, 8), (32, 8), (40, 8), (48, 8), (56, 8)],
                )
            },
            13 => Layout {
                digits: Digits::SwappedPairs,
                ..bits(2000..=2099, &PAIRS)
            },
            14 => Layout {
                digits: Digits::SemiOctets,
                extra: Some((0, 8)),
                ..bits(
                    2000..=2099,
                    &[(48, 8), (40, 8), (32, 8), (24, 8), (16, 8), (8, 8)],
                )
            },
            _ => panic!("layout {number} has no civil fields"),
        }
    }

    pub fn fields(&self) -> usize {
        self.places.len()
    }

    /// The word of a civil time, with nothing in what is no civil field. What a field can't hold is dropped.
    pub fn word(&self, civil: &Civil) -> i64 {
        (0..self.fields()).fold(0, |word, field| {
            self.with(word, field, self.stored(field, civil[field]))
        })
    }

    /// The word with that stored in one field.
    pub fn with(&self, word: i64, field: usize, stored: u64) -> i64 {
        let (place, width) = self.places[field];
        let ordered = self.in_order(word as u64);
        let changed = match self.digits {
            Digits::Bits | Digits::SemiOctets => with_bits(ordered, place, width, stored),
            Digits::Pairs | Digits::SwappedPairs => {
                let unit = 100_u64.pow(place);
                ordered - ordered / unit % 100 * unit + stored * unit
            }
        };
        self.in_order(changed) as i64
    }

    /// The word with that stored in what is no civil field.
    pub fn with_extra(&self, word: i64, stored: u64) -> i64 {
        match self.extra {
            None => word,
            Some((place, width)) => with_bits(word as u64, place, width, stored) as i64,
        }
    }

    /// The largest number that can be stored in a field.
    pub fn most(&self, field: usize) -> u64 {
        match self.digits {
            Digits::Bits | Digits::SemiOctets => ones(self.places[field].1),
            Digits::Pairs | Digits::SwappedPairs => 99,
        }
    }

    /// The largest number that can be stored in what is no civil field; 0 where there is nothing.
    pub fn most_extra(&self) -> u64 {
        self.extra.map_or(0, |(_, width)| ones(width))
    }

    /// What is stored in a field at the ends of its good values and beside them, at its own ends, and where a byte ends.
    pub fn edges(&self, field: usize) -> Vec<u64> {
        let good = match field {
            YEAR => self.years.clone(),
            _ => GOOD[field].clone(),
        };
        let least = self.stored(field, *good.start());
        let largest = self.stored(field, *good.end());
        let past = self.stored(field, *good.end() + 1);
        let mut edges = vec![
            0,
            1,
            least,
            least + 1,
            largest - 1,
            largest,
            largest + 1,
            past,
        ];
        edges.extend([127, 128, 255, 32_767, 32_768, self.most(field)]);
        edges.retain(|&stored| stored <= self.most(field));
        edges
    }

    /// What is stored in a field for a value.
    fn stored(&self, field: usize, value: i64) -> u64 {
        let number = match field {
            YEAR => value - self.years.start(),
            MONTH => value - self.month,
            SECOND => value / self.step,
            _ => value,
        } as u64;
        match self.digits {
            Digits::Bits | Digits::Pairs => number,
            Digits::SwappedPairs => number % 10 * 10 + number / 10,
            Digits::SemiOctets => number % 10 * 16 + number / 10,
        }
    }

    /// A word's bits in the order of the places, and back.
    fn in_order(&self, word: u64) -> u64 {
        match self.order {
            Order::Straight => word,
            Order::Reversed => word >> 32 << 32 | u64::from((word as u32).swap_bytes()),
            Order::YearSwapped => {
                with_bits(word, 40, 16, ((word >> 40) as u16).swap_bytes().into())
            }
        }
    }
}

const PAIRS: [(u32, u32); 6] = [(5, 1), (4, 1), (3, 1), (2, 1), (1, 1), (0, 1)];
const SIX_BYTES: [(u32, u32); 6] = [(40, 8), (32, 8), (24, 8), (16, 8), (8, 8), (0, 8)];
const SEVEN_BYTES: [(u32, u32); 6] = [(40, 16), (32, 8), (24, 8), (16, 8), (8, 8), (0, 8)];

/// A layout in its plainest form.
fn bits(years: RangeInclusive<i64>, places: &'static [(u32, u32)]) -> Layout {
    Layout {
        years,
        digits: Digits::Bits,
        order: Order::Straight,
        places,
        extra: None,
        month: 0,
        step: 1,
    }
}

fn ones(width: u32) -> u64 {
    (1 << width) - 1
}

fn with_bits(word: u64, place: u32, width: u32, stored: u64) -> u64 {
    let mask = ones(width) << place;
    word & !mask | stored << place & mask
}
