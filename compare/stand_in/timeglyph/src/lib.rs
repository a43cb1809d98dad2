//! timeglyph's own src/registry.rs and src/compose.rs, under a stand-in for the root of their crate: the true one leans on
//! crates that are not at hand. It has what the two take from there, with the parts that they use, and a way to a layout's
//! codec by document 01's numbers. Its types follow timeglyph's src/lib.rs (Apache-2.0; see NOTICE), and were changed.
//!
//! Of the linear formats there is FILETIME alone. It is decoded as the root's `Format::decode_int` decodes such a format; its
//! epoch and unit, which the catalogue of another crate has, are those of document 01.

// `pub mod registry` and `pub mod compose`, the Rust's own text.
include!(concat!(env!("OUT_DIR"), "/modules.rs"));

use forensicnomicon::temporal_formats::{Encoding, TimeFormat};

/// The version of jiff that they are compiled with.
pub const JIFF_VERSION: &str = env!("JIFF_VERSION");

pub enum ChronoError {
    OutOfRange { what: &'static str, value: i128 },
    Render(String),
}

/// Nanoseconds since 1970.
pub struct PosixNs(pub i128);

pub struct PackedCodec {
    pub decode: fn(i64) -> Result<PosixNs, ChronoError>,
    pub encode: Option<fn(PosixNs) -> Result<i64, ChronoError>>,
}

pub struct Format {
    pub meta: &'static TimeFormat,
    pub packed: Option<PackedCodec>,
}

pub enum Unit {
    HundredNanos,
}

impl Unit {
    pub fn nanos(&self) -> i128 {
        match self {
            Unit::HundredNanos => 100,
        }
    }
}

/// A format that counts units from an epoch.
pub struct Linear {
    epoch_ns: i128,
    unit: Unit,
}

/// Counts from 1601-01-01.
static FILETIME: Linear = Linear {
    epoch_ns: -11_644_473_600_000_000_000,
    unit: Unit::HundredNanos,
};

impl Linear {
    pub fn decode_int(&self, value: i64) -> Result<PosixNs, ChronoError> {
        let ticks = i128::from(value);
        let ns = ticks
            .checked_mul(self.unit.nanos())
            .and_then(|t| t.checked_add(self.epoch_ns))
            .ok_or(ChronoError::OutOfRange {
                what: "nanoseconds",
                value: ticks,
            })?;
        Ok(PosixNs(ns))
    }
}

pub fn format(id: &str) -> Result<&'static Linear, ChronoError> {
    assert_eq!(id, "filetime", "src/compose.rs asks for no other format");
    Ok(&FILETIME)
}

/// The codec of a layout number from 1 to 16.
pub fn codec(layout: i64) -> &'static PackedCodec {
    registry::FORMATS
        .iter()
        .find(|format| match format.meta.encoding {
            Encoding::Packed(packed) => packed as i64 + 1 == layout,
            _ => false,
        })
        .and_then(|format| format.packed.as_ref())
        .expect("each of the sixteen has a codec")
}
