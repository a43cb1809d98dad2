//! The Rust's codecs run over columns: how many rows are done before one is refused.

use questions::rows::{self, INSTANT, WORD};
use timeglyph::{PackedCodec, PosixNs};

/// Words to the rows of 12 bytes that this library writes: the Rust's count is divided into seconds and nanoseconds.
pub fn decode_column(codec: &PackedCodec, words: &[u8], instants: &mut [u8]) -> usize {
    let mut done = 0;
    for (word, instant) in words
        .chunks_exact(WORD)
        .zip(instants.chunks_exact_mut(INSTANT))
    {
        if !rows::decode(codec, word, instant) {
            break;
        }
        done += 1;
    }
    done
}

/// Words to the Rust's own counts, with no division behind them.
pub fn decode_to_counts(codec: &PackedCodec, words: &[u8], counts: &mut [i128]) -> usize {
    let mut done = 0;
    for (word, written) in words.chunks_exact(WORD).zip(counts) {
        let Ok(PosixNs(count)) = (codec.decode)(rows::word(word)) else {
            break;
        };
        *written = count;
        done += 1;
    }
    done
}

/// Rows of 12 bytes to words.
pub fn encode_column(codec: &PackedCodec, instants: &[u8], words: &mut [u8]) -> usize {
    let mut done = 0;
    for (instant, word) in instants
        .chunks_exact(INSTANT)
        .zip(words.chunks_exact_mut(WORD))
    {
        if !rows::encode(codec, instant, word) {
            break;
        }
        done += 1;
    }
    done
}
