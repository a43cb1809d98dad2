//! The sixteen layouts, by name.

use crate::refusal::{Reason, Refusal};

/// The layout of a packed word. docs/LAYOUTS.md has what each packs and who writes it.
///
/// ```
/// use sleetrick::{Layout, Reason};
///
/// assert_eq!(Layout::Dvr.number(), 9);
/// assert_eq!(Layout::try_from(9), Ok(Layout::Dvr));
/// assert_eq!(Layout::try_from(17).unwrap_err().reason(), Reason::Layout);
/// ```
#[derive(Clone, Copy, Debug, PartialEq, Eq, PartialOrd, Ord, Hash)]
#[non_exhaustive]
#[repr(u32)]
pub enum Layout {
    /// FAT directory entries: 1980 to 2107, in steps of two seconds.
    FatDos = 1,
    /// exFAT directory entries: the same word.
    ExFat = 2,
    /// Word documents: 1900 to 2411, in minutes.
    Dttm = 3,
    /// Four bytes reversed: years 0 to 4095, in minutes.
    BitDate = 4,
    /// The same fields as a number: years 0 to 9999, in minutes.
    BitDec = 5,
    /// Twelve decimal digits: 2000 to 2099, in seconds.
    Bcd = 6,
    /// A byte for each field: 1970 to 2225, in seconds.
    Moto = 7,
    /// The same, with January as month 0.
    Symantec = 8,
    /// Video recorders: 2000 to 2063, in seconds.
    Dvr = 9,
    /// A year of two bytes, then a byte for each field: years 0 to 9999, in seconds.
    Ns40 = 10,
    /// The same, with the two bytes of the year exchanged.
    Ns40Le = 11,
    /// A byte for each field, the second on top: 1900 to 2155, in seconds.
    LogTime = 12,
    /// Twelve decimal digits, those of each pair exchanged: 2000 to 2099, in seconds.
    SemiOctet = 13,
    /// Text messages, with a zone: 2000 to 2099, in seconds.
    Gsm = 14,
    /// Four bytes reversed, a count of seconds: 1913 to 2050.
    NokiaLe = 15,
    /// SQL Server's `datetime`: days and ticks of 1/300 second from 1900.
    SqlServer = 16,
}

impl Layout {
    /// All of them, in the order of their numbers.
    pub const ALL: &'static [Layout] = &[
        Layout::FatDos,
        Layout::ExFat,
        Layout::Dttm,
        Layout::BitDate,
        Layout::BitDec,
        Layout::Bcd,
        Layout::Moto,
        Layout::Symantec,
        Layout::Dvr,
        Layout::Ns40,
        Layout::Ns40Le,
        Layout::LogTime,
        Layout::SemiOctet,
        Layout::Gsm,
        Layout::NokiaLe,
        Layout::SqlServer,
    ];

    /// The number, 1 to 16.
    #[must_use]
    pub const fn number(self) -> u32 {
        self as u32
    }
}

impl TryFrom<u32> for Layout {
    type Error = Refusal;

    /// The layout of a number.
    ///
    /// # Errors
    ///
    /// [`Reason::Layout`] where the number is not 1 to 16.
    fn try_from(number: u32) -> Result<Layout, Refusal> {
        Layout::ALL
            .iter()
            .copied()
            .find(|layout| layout.number() == number)
            .ok_or(Refusal::new(Reason::Layout))
    }
}

impl From<Layout> for u32 {
    fn from(layout: Layout) -> u32 {
        layout.number()
    }
}
