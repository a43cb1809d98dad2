//! Document 01's stamps on the composites, and what it says of them in words, with the answers that it gives.

use questions::composites::Written::{Cp56, Oracle, Udf};
use questions::composites::{filetime, stamp, unix_sec_nsec, vmsd, Question};

pub fn stamps() -> Vec<(Question, &'static str)> {
    let udf = |zone: [u8; 2]| {
        let bytes = [zone[0], zone[1], 0xD0, 0x07, 1, 1, 0, 0, 0, 0, 0, 0];
        stamp(Udf, &bytes)
    };
    vec![
        (
            stamp(Cp56, &[0x5F, 0xEA, 0, 0, 1, 1, 0]),
            "946684859 999000000",
        ),
        (stamp(Cp56, &[0x60, 0xEA, 0, 0, 1, 1, 0]), "refused 3"),
        (udf([0x01, 0x08]), "946684800 0"),
        (udf([0x00, 0x08]), "946807680 0"),
        // The epoch of FILETIME, and its top bit; the low half of vmsd is unsigned; nanoseconds carry, and out of 64 bits
        // they don't.
        (filetime(0, 0), "-11644473600 0"),
        (filetime(0, 2_147_483_648), "refused 2"),
        (vmsd(0, -1), "4294 967295000"),
        (unix_sec_nsec(0, 1_000_000_000), "1 0"),
        (unix_sec_nsec(i64::MAX, 1_000_000_000), "refused 12"),
        // Both ends of the window.
        (stamp(Oracle, &[1, 1, 1, 2, 2, 60, 60]), "-377705023201 0"),
        (stamp(Oracle, &[1, 1, 1, 2, 2, 60, 59]), "refused 3"),
        (
            stamp(Oracle, &[199, 199, 12, 30, 23, 1, 1]),
            "253402207200 0",
        ),
        (stamp(Oracle, &[199, 199, 12, 30, 23, 1, 2]), "refused 3"),
        // A wrong length is refused before the bytes are looked at.
        (stamp(Oracle, &[]), "refused 10"),
        (stamp(Cp56, &[0x60, 0xEA, 0, 0, 1, 1]), "refused 10"),
    ]
}
