//! Why there is no value.

use core::error::Error;
use core::fmt;

/// Why a call gives no value: its [`reason`](Refusal::reason), and no instant.
///
/// A program compares reasons, not refusals: a refusal may say more one day.
///
/// ```
/// use sleetrick::{decode, Layout, Reason};
///
/// let refusal = decode(Layout::FatDos, 2_162_718).unwrap_err();
/// assert_eq!(refusal.reason(), Reason::Fields);
/// assert_eq!(refusal.number(), 3);
/// ```
#[derive(Clone, Copy, Debug, PartialEq, Eq, Hash)]
pub struct Refusal {
    reason: Reason,
}

/// The reasons for a refusal. Each has a number, which is the one in docs/LAYOUTS.md, in logs and in the line program.
#[derive(Clone, Copy, Debug, PartialEq, Eq, Hash)]
#[non_exhaustive]
#[repr(u32)]
pub enum Reason {
    /// The layout number is not 1 to 16.
    Layout = 1,
    /// A word outside its layout's range, or a FILETIME with its top bit set.
    Range = 2,
    /// Fields that are no date and time, or lie outside the calendar.
    Fields = 3,
    /// The units of a [`Gsm`](crate::Layout::Gsm) zone are above 9.
    Zone = 4,
    /// The ticks of a [`SqlServer`](crate::Layout::SqlServer) word are a day or more.
    Ticks = 5,
    /// Seconds outside the calendar.
    Window = 6,
    /// A year that the layout has no room for.
    Year = 7,
    /// A count that the word has no room for.
    Count = 8,
    /// Nanoseconds above 999,999,999.
    Nanos = 9,
    /// A byte stamp of a wrong length.
    Length = 10,
    /// Columns that are not whole rows, or have not as many of them.
    Rows = 11,
    /// Seconds that do not fit 64 bits.
    Carry = 12,
    /// A column of more than [`MOST_ROWS`](crate::MOST_ROWS) rows.
    Column = 13,
}

impl Reason {
    /// In the order of their numbers.
    const ALL: [Reason; 13] = [
        Reason::Layout,
        Reason::Range,
        Reason::Fields,
        Reason::Zone,
        Reason::Ticks,
        Reason::Window,
        Reason::Year,
        Reason::Count,
        Reason::Nanos,
        Reason::Length,
        Reason::Rows,
        Reason::Carry,
        Reason::Column,
    ];

    /// The number, 1 to 13.
    #[must_use]
    pub const fn number(self) -> u32 {
        self as u32
    }

    /// What is wrong, and what it may come from.
    const fn text(self) -> &'static str {
        match self {
            Reason::Layout => "there is no layout of this number; layouts have the numbers 1 to 16",
            Reason::Range => {
                "the word is outside its layout's range, or the FILETIME has its top bit set; it may be of another layout, or \
                 read with the wrong width or sign"
            }
            Reason::Fields => {
                "the fields are no date and time, or lie outside the calendar; the stamp may be of another kind, have its bytes \
                 in another order, or never have been set"
            }
            Reason::Zone => {
                "the quarter hours of the zone have a digit above 9; the date before them is good, the zone byte is damaged"
            }
            Reason::Ticks => {
                "the ticks of the day are a day or more; the two halves may be exchanged, or the word be of another layout"
            }
            Reason::Window => {
                "the instant is outside the calendar, which has the days from -9999-01-02 to 9999-12-30; its seconds may be a \
                 count in another unit"
            }
            Reason::Year => "the layout has no room for the instant's year; take one whose years reach that far",
            Reason::Count => {
                "the layout counts from an epoch and has no room for the count to the instant; take one of civil fields"
            }
            Reason::Nanos => "the nanoseconds are above 999,999,999; carry whole seconds into the seconds",
            Reason::Length => {
                "the stamp has not as many bytes as its kind, which are 7 for Oracle and CP56Time2a and 12 for UDF; lend the \
                 stamp alone, whole"
            }
            Reason::Rows => {
                "there is not room for exactly as many results as there are rows, or a column in bytes is not whole rows, of 8 \
                 bytes for a word and 12 for an instant"
            }
            Reason::Carry => {
                "the seconds do not fit 64 bits once the nanoseconds are carried; the stamp is damaged"
            }
            Reason::Column => "the column has more than 1,048,576 rows; hand it over in parts",
        }
    }
}

impl Refusal {
    pub(crate) const fn new(reason: Reason) -> Refusal {
        Refusal { reason }
    }

    /// The refusal of a number that the library told.
    pub(crate) fn told(number: u64) -> Refusal {
        let reason = Reason::ALL
            .into_iter()
            .find(|reason| u64::from(reason.number()) == number)
            .expect("the library refuses under the numbers of the reasons");
        Refusal::new(reason)
    }

    /// Why.
    #[must_use]
    pub const fn reason(self) -> Reason {
        self.reason
    }

    /// The number of the reason, 1 to 13.
    #[must_use]
    pub const fn number(self) -> u32 {
        self.reason.number()
    }
}

impl fmt::Display for Refusal {
    fn fmt(&self, out: &mut fmt::Formatter) -> fmt::Result {
        write!(out, "refused {}: {}", self.number(), self.reason.text())
    }
}

impl Error for Refusal {}
