//! The boundaries of the composites in two numbers, each asked on both sides, and numbers outside their types.

use super::{filetime, unix_sec_nsec, vmsd, Question};

/// Ticks of FILETIME from 1601-01-01 to 1970-01-01.
const TICKS_TO_1970: i64 = 116_444_736_000_000_000;

const I32_ENDS: [i64; 2] = [i32::MIN as i64, i32::MAX as i64];
const U32_END: i64 = u32::MAX as i64;

pub fn questions() -> Vec<Question> {
    [filetimes(), vmsds(), unix_sec_nsecs()].concat()
}

/// Every number of the one with every number of the other.
fn pairs(
    ones: &[i64],
    others: &[i64],
    question: fn(i64, i64) -> Question,
) -> impl Iterator<Item = Question> {
    let mut all = Vec::new();
    for &one in ones {
        for &other in others {
            all.push(question(one, other));
        }
    }
    all.into_iter()
}

/// Each with the number before it and the one after it.
fn around(numbers: &[i64]) -> Vec<i64> {
    numbers
        .iter()
        .flat_map(|number| [number.saturating_sub(1), *number, number.saturating_add(1)])
        .collect()
}

/// Ends of u32, of i32 and of i64, inside and outside; ticks beside a second's start and beside 1970.
fn filetimes() -> Vec<Question> {
    let ends = around(&[0, 1 << 31, U32_END, -1 << 31, i64::MIN, i64::MAX]);
    let mut all: Vec<Question> = pairs(&ends, &ends, filetime).collect();
    let starts = [
        10_000_000,
        1 << 32,
        TICKS_TO_1970,
        i64::MAX / 10_000_000 * 10_000_000,
    ];
    for ticks in around(&starts) {
        all.push(filetime(ticks & U32_END, ticks >> 32));
    }
    all
}

/// Ends of i32, of u32 and of i64, inside and outside; microseconds beside a second's start.
fn vmsds() -> Vec<Question> {
    let ends = around(&[0, I32_ENDS[0], I32_ENDS[1], U32_END, i64::MIN, i64::MAX]);
    let mut all: Vec<Question> = pairs(&ends, &ends, vmsd).collect();
    let last = i64::MAX / 1_000_000 * 1_000_000;
    let starts = [-last, -1 << 32, -1_000_000, 0, 1_000_000, 1 << 32, last];
    for micros in around(&starts) {
        all.push(vmsd(micros >> 32, i64::from(micros as i32)));
    }
    all
}

/// Ends of i64 and of what a carry of up to four seconds leaves; nanoseconds beside each whole second, and u32's ends.
fn unix_sec_nsecs() -> Vec<Question> {
    let mut seconds = around(&[0, i64::MIN, I32_ENDS[0], I32_ENDS[1], U32_END]);
    seconds.extend(i64::MAX - 5..=i64::MAX);
    let whole = [0, 1, 2, 3, 4].map(|second| second * 1_000_000_000);
    let mut nanos = around(&whole);
    nanos.extend(around(&[1 << 31, U32_END, i64::MIN, i64::MAX]));
    pairs(&seconds, &nanos, unix_sec_nsec).collect()
}
