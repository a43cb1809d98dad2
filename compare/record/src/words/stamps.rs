//! Document 01's example of lines, its stamps on the sixteen words, and its traps, with the answers that it gives.

use questions::words::{decode, encode, Question};

pub fn example() -> Vec<(Question, &'static str)> {
    vec![
        (decode(1, 2_162_688), "315532800 0"),
        (decode(16, 25_920_000), "refused 5"),
        (encode(16, -2_208_988_800, 5_000_000), "2"),
    ]
}

pub fn stamps() -> Vec<(Question, &'static str)> {
    vec![
        (decode(1, 2_162_688), "315532800 0"),
        (decode(1, 2_162_717), "315532858 0"),
        (decode(1, 2_162_718), "refused 3"),
        (decode(1, 4_288_659_325), "4354819198 0"),
        (decode(3, 67_584), "-2208988800 0"),
        (decode(3, 2_147_551_232), "-2208988800 0"),
        (decode(3, 190_464), "refused 3"),
        (decode(14, 0x00_10_10_00_00_00_40), "946681200 0"),
        (decode(14, 0x00_10_10_00_00_00_48), "946688400 0"),
        (decode(14, 0x00_10_10_00_00_00_A0), "refused 4"),
        (decode(14, 0xFF_10_10_00_00_00_00), "915148800 0"),
        (decode(15, 4_294_967_295), "2524608000 0"),
        (decode(15, 0), "-1770359295 0"),
        (encode(15, 2_524_608_001, 0), "refused 8"),
        (decode(16, 25_919_999), "-2208902401 996666666"),
        (decode(16, -1), "refused 5"),
        (decode(16, -4_294_967_296), "-2209075200 0"),
        (encode(16, -2_208_902_401, 998_333_333), "25919999"),
        (encode(16, -2_208_902_401, 998_333_334), "4294967296"),
        // The example's lines again, whose first is the first stamp.
        (decode(16, 25_920_000), "refused 5"),
        (encode(16, -2_208_988_800, 5_000_000), "2"),
        // The traps. A nanosecond before 1970 is 1969-12-31 23:59:59; the last nanosecond of 1899 is the first tick of
        // 1900; month 31 is refused before the zone's units.
        (encode(10, -1, 999_999_999), "2164990456314683"),
        (encode(16, -2_208_988_801, 999_999_999), "0"),
        (decode(14, 0x00_13_10_00_00_00_A0), "refused 3"),
    ]
}
