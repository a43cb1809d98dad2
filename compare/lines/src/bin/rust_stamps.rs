//! rust_stamps: the line program over the Rust's codecs, as a peer to time `stamps` beside. It reads a block of standard input,
//! cuts lines where they lie, and writes their answers a block at a time; nothing is allocated for a line. The Rust's refusals
//! have no number: `refused`.

use questions::counts::{count, seconds_and_nanos};
use questions::line::{question, LONGEST};
use questions::words::layouts::NUMBERS;
use questions::words::Question;
use std::io::{self, Read, Write};
use timeglyph::{codec, PackedCodec};

/// The bytes that are read, and about as many that are written, at a time.
const BLOCK: usize = 1 << 16;

fn main() -> io::Result<()> {
    let codecs: Vec<&PackedCodec> = NUMBERS.map(codec).collect();
    let (mut input, mut output) = (io::stdin().lock(), io::stdout().lock());
    let mut block = vec![0; LONGEST + 1 + BLOCK];
    let mut answers = Vec::with_capacity(2 * BLOCK);
    let mut held = 0;
    loop {
        let read = input.read(&mut block[held..])?;
        let mut rest = &block[..held + read];
        while let Some(length) = rest.iter().position(|&byte| byte == b'\n') {
            answer(&codecs, &rest[..length], &mut answers);
            rest = &rest[length + 1..];
            if answers.len() >= BLOCK {
                output.write_all(&answers)?;
                answers.clear();
            }
        }
        if read == 0 {
            if !rest.is_empty() {
                answer(&codecs, rest, &mut answers);
            }
            return output.write_all(&answers);
        }
        // Of a line that is too long, as much is held as shows it.
        let start = held + read - rest.len();
        held = rest.len().min(LONGEST + 1);
        block.copy_within(start..start + held, 0);
    }
}

fn answer(codecs: &[&PackedCodec], line: &[u8], answers: &mut Vec<u8>) {
    match question(line) {
        None => answers.extend_from_slice(b"bad line"),
        Some(question) => {
            if ask(codecs, question, answers).is_none() {
                answers.extend_from_slice(b"refused");
            }
        }
    }
    answers.push(b'\n');
}

/// Writes the answer, if the Rust has one.
fn ask(codecs: &[&PackedCodec], question: Question, answers: &mut Vec<u8>) -> Option<()> {
    let codec = |layout: i64| codecs.get(usize::try_from(layout - 1).ok()?);
    match question {
        Question::Decode { layout, word } => {
            let count = (codec(layout)?.decode)(word).ok()?;
            let (seconds, nanos) = seconds_and_nanos(&count);
            put(answers, seconds.try_into().ok()?);
            answers.push(b' ');
            put(answers, nanos.into());
        }
        Question::Encode {
            layout,
            seconds,
            nanos,
        } => {
            let encode = codec(layout)?.encode?;
            if !(0..1_000_000_000).contains(&nanos) {
                return None;
            }
            put(answers, encode(count(seconds, nanos)).ok()?);
        }
    }
    Some(())
}

/// A number in decimal.
fn put(answers: &mut Vec<u8>, number: i64) {
    let mut digits = [0; 19];
    let mut first = digits.len();
    let mut rest = number.unsigned_abs();
    loop {
        first -= 1;
        digits[first] = b'0' + (rest % 10) as u8;
        rest /= 10;
        if rest == 0 {
            break;
        }
    }
    if number < 0 {
        answers.push(b'-');
    }
    answers.extend_from_slice(&digits[first..]);
}
