//! A line of the line program, read by document 01's rules.

use crate::words::{decode, encode, Question};

/// The longest line, its LF not counted.
pub const LONGEST: usize = 64;

/// The most digits of a number.
const DIGITS: usize = 19;

/// What a line without its LF asks, if it asks anything.
pub fn question(line: &[u8]) -> Option<Question> {
    if line.len() > LONGEST {
        return None;
    }
    let mut words = line.split(|&byte| byte == b' ');
    let letter = words.next()?;
    let mut next = || number(words.next()?);
    let asked = match letter {
        b"d" => decode(next()?, next()?),
        b"e" => encode(next()?, next()?, next()?),
        _ => return None,
    };
    words.next().is_none().then_some(asked)
}

/// An optional minus and 1 to 19 digits, which fit i64.
fn number(text: &[u8]) -> Option<i64> {
    let (negative, digits) = match text {
        [b'-', digits @ ..] => (true, digits),
        digits => (false, digits),
    };
    if digits.is_empty() || digits.len() > DIGITS {
        return None;
    }
    // 19 digits fit u64.
    let mut size: u64 = 0;
    for digit in digits {
        match digit {
            b'0'..=b'9' => size = size * 10 + u64::from(digit - b'0'),
            _ => return None,
        }
    }
    if negative {
        0_i64.checked_sub_unsigned(size)
    } else {
        i64::try_from(size).ok()
    }
}
