//! The list of the program `replay`: the calendar, document 01's stamps on the sixteen words, the composites, lines that ask
//! nothing, and words and refusals by name. Its last line lacks its LF.

mod bad_lines;
mod long_lines;
mod named;

use crate::lists::{last_line, List};
use crate::{calendar, composites, words};

pub fn list() -> List {
    let mut parts = calendar::parts();
    parts.extend(words::parts_by_word());
    parts.extend(composites::parts());
    parts.push(bad_lines::part());
    parts.push(long_lines::part());
    parts.extend(named::parts());
    parts.push(last_line(words::stamps_by_word()));
    List {
        seeds: vec![calendar::SEED, composites::SEED],
        parts,
        ends_in_lf: false,
    }
}
