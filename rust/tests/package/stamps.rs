//! Document 01's stamps that are words or instants of a layout, and its traps.

use crate::columns::{at, decode, encode, instant};
use sleetrick::{Layout, Reason};

#[test]
fn fat() {
    assert_eq!(decode(Layout::FatDos, 2_162_688), Ok(at(315_532_800)));
    assert_eq!(decode(Layout::FatDos, 2_162_717), Ok(at(315_532_858)));
    assert_eq!(decode(Layout::FatDos, 2_162_718), Err(Reason::Fields));
    assert_eq!(decode(Layout::FatDos, 4_288_659_325), Ok(at(4_354_819_198)));
}

#[test]
fn dttm() {
    assert_eq!(decode(Layout::Dttm, 67_584), Ok(at(-2_208_988_800)));
    assert_eq!(decode(Layout::Dttm, 2_147_551_232), Ok(at(-2_208_988_800)));
    assert_eq!(decode(Layout::Dttm, 190_464), Err(Reason::Fields));
}

#[test]
fn gsm() {
    assert_eq!(
        decode(Layout::Gsm, 0x00_10_10_00_00_00_40),
        Ok(at(946_681_200))
    );
    assert_eq!(
        decode(Layout::Gsm, 0x00_10_10_00_00_00_48),
        Ok(at(946_688_400))
    );
    assert_eq!(
        decode(Layout::Gsm, 0x00_10_10_00_00_00_A0),
        Err(Reason::Zone)
    );
    assert_eq!(
        decode(Layout::Gsm, 0xFF_10_10_00_00_00_00),
        Ok(at(915_148_800))
    );
}

#[test]
fn nokia() {
    assert_eq!(
        decode(Layout::NokiaLe, 4_294_967_295),
        Ok(at(2_524_608_000))
    );
    assert_eq!(decode(Layout::NokiaLe, 0), Ok(at(-1_770_359_295)));
    assert_eq!(
        encode(Layout::NokiaLe, at(2_524_608_001)),
        Err(Reason::Count)
    );
}

#[test]
fn sql_server() {
    let last_tick = instant(-2_208_902_401, 996_666_666);
    assert_eq!(decode(Layout::SqlServer, 25_919_999), Ok(last_tick));
    assert_eq!(decode(Layout::SqlServer, 25_920_000), Err(Reason::Ticks));
    assert_eq!(decode(Layout::SqlServer, -1), Err(Reason::Ticks));
    assert_eq!(
        decode(Layout::SqlServer, -4_294_967_296),
        Ok(at(-2_209_075_200))
    );
}

/// Half a tick before midnight goes up, into the next day.
#[test]
fn the_roll() {
    let before = |nanos| instant(-2_208_902_401, nanos);
    assert_eq!(
        encode(Layout::SqlServer, before(998_333_333)),
        Ok(25_919_999)
    );
    assert_eq!(
        encode(Layout::SqlServer, before(998_333_334)),
        Ok(4_294_967_296)
    );
}

/// Seconds before 1970 are cut downwards: a nanosecond before it is 1969-12-31 23:59:59.
#[test]
fn a_nanosecond_before_1970() {
    let last = instant(-1, 999_999_999);
    assert_eq!(encode(Layout::Ns40, last), Ok(0x07_B1_0C_1F_17_3B_3B));
}
