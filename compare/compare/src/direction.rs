//! Decoding and encoding, as functions on rows of bytes.

use questions::rows::{self, INSTANT, WORD};
use questions::words::{decode, encode, Question};
use sleetrick::{decode_column, encode_column, Done, Instant, Layout, Refusal};
use timeglyph::PackedCodec;

#[derive(Clone, Copy)]
pub enum Direction {
    Decode,
    Encode,
}

impl Direction {
    /// The bytes of a row that is read.
    pub fn read(self) -> usize {
        match self {
            Direction::Decode => WORD,
            Direction::Encode => INSTANT,
        }
    }

    /// The bytes of a row that is written.
    pub fn written(self) -> usize {
        match self {
            Direction::Decode => INSTANT,
            Direction::Encode => WORD,
        }
    }

    /// What a row asks, as a line.
    pub fn question(self, layout: u32, row: &[u8]) -> String {
        match self {
            Direction::Decode => decode(layout.into(), rows::word(row)).to_string(),
            Direction::Encode => {
                let (seconds, nanos) = rows::instant(row);
                encode(layout.into(), seconds, nanos.into()).to_string()
            }
        }
    }

    /// A written row, as a line.
    pub fn answer(self, row: &[u8]) -> String {
        match self {
            Direction::Decode => {
                let (seconds, nanos) = rows::instant(row);
                format!("{seconds} {nanos}")
            }
            Direction::Encode => rows::word(row).to_string(),
        }
    }

    /// The Rust's answer to a row, if it does not refuse.
    pub fn rust(self, codec: &PackedCodec, read: &[u8], written: &mut [u8]) -> bool {
        match self {
            Direction::Decode => rows::decode(codec, read, written),
            Direction::Encode => rows::encode(codec, read, written),
        }
    }

    /// This library's answer to a column.
    pub fn ours<'a>(self, layout: u32, read: &[u8], written: &'a mut [u8]) -> Done<'a, u8> {
        let layout = layout_of(layout);
        match self {
            Direction::Decode => decode_column(layout, read, written),
            Direction::Encode => encode_column(layout, read, written),
        }
    }

    /// This library's answer to one row, by its single call: the row is written, or nothing is, and there is a refusal.
    pub fn single(self, layout: u32, read: &[u8], written: &mut [u8]) -> Result<(), Refusal> {
        let layout = layout_of(layout);
        match self {
            Direction::Decode => {
                let instant = sleetrick::decode(layout, rows::word(read))?;
                rows::put_instant(written, instant.seconds(), instant.nanos());
            }
            Direction::Encode => {
                let (seconds, nanos) = rows::instant(read);
                let word = sleetrick::encode(layout, Instant::new(seconds, nanos)?)?;
                rows::put_word(written, word);
            }
        }
        Ok(())
    }
}

/// The layout of a number that both sides can be asked.
fn layout_of(number: u32) -> Layout {
    Layout::try_from(number).expect("questions have a layout")
}

/// The direction, the layout number and the row of a question that both sides can be asked.
pub fn row(question: &Question) -> Option<(Direction, u32, Vec<u8>)> {
    let (direction, layout) = match *question {
        Question::Decode { layout, .. } => (Direction::Decode, layout),
        Question::Encode { layout, .. } => (Direction::Encode, layout),
    };
    let layout = u32::try_from(layout)
        .ok()
        .filter(|n| (1..=16).contains(n))?;
    let mut row = vec![0; direction.read()];
    match *question {
        Question::Decode { word, .. } => rows::put_word(&mut row, word),
        Question::Encode { seconds, nanos, .. } => {
            let nanos = u32::try_from(nanos).ok().filter(|&n| n <= 999_999_999)?;
            rows::put_instant(&mut row, seconds, nanos);
        }
    }
    Some((direction, layout, row))
}
