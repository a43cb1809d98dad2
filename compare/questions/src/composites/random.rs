//! Random questions on the composites, from the seeded generator.

use super::{filetime, stamp, unix_sec_nsec, vmsd, Question, Written};
use crate::calendar::fields_of;
use crate::splitmix::SplitMix;

/// The longest stamp.
const LONGEST: u64 = 31;

/// One of each composite in two numbers: the halves of a number of any bit length, and seconds of any bit length.
pub fn in_numbers(numbers: &mut SplitMix) -> [Question; 3] {
    let ticks = numbers.of_any_length();
    let filetime = filetime(i64::from(ticks as u32), i64::from((ticks >> 32) as u32));
    let micros = numbers.of_any_length();
    let vmsd = vmsd(micros >> 32, i64::from(micros as i32));
    let seconds = numbers.of_any_length();
    let length = numbers.below(33) as u32;
    let nanos = numbers.of_bit_length(length) as i64;
    [filetime, vmsd, unix_sec_nsec(seconds, nanos)]
}

pub fn good(written: Written, numbers: &mut SplitMix) -> Question {
    stamp(written, &good_stamp(written, numbers))
}

/// By turns: a good stamp with another byte in one place, one with one bit changed, any bytes of the right length, any
/// length.
pub fn damaged(written: Written, turn: usize, numbers: &mut SplitMix) -> Question {
    let mut bytes = good_stamp(written, numbers);
    let place = numbers.below(bytes.len() as u64) as usize;
    match turn % 4 {
        0 => bytes[place] = byte(numbers),
        1 => bytes[place] ^= 1 << numbers.below(8),
        2 => bytes.fill_with(|| byte(numbers)),
        _ => bytes.resize(numbers.below(LONGEST + 1) as usize, byte(numbers)),
    }
    stamp(written, &bytes)
}

fn byte(numbers: &mut SplitMix) -> u8 {
    numbers.below(256) as u8
}

/// With something in what is no civil field.
fn good_stamp(written: Written, numbers: &mut SplitMix) -> Vec<u8> {
    let seconds = written.seconds();
    let second = numbers.between(*seconds.start(), *seconds.end());
    let fields = fields_of(second).expect("jiff has the window");
    let mut bytes = written.bytes(&fields.numbers());
    match written {
        Written::Oracle => {}
        Written::Cp56 => {
            let milliseconds = fields.second * 1000 + numbers.below(1000);
            bytes[..2].copy_from_slice(&(milliseconds as u16).to_le_bytes());
            for (place, field) in [(2, 6), (3, 5), (4, 5), (5, 4), (6, 7)] {
                bytes[place] |= byte(numbers) >> field << field;
            }
        }
        Written::Udf => {
            for place in [0, 1, 9, 10, 11] {
                bytes[place] = byte(numbers);
            }
        }
    }
    bytes
}
