//! What the functions on many rows answer.

use crate::{Reason, Refusal};
use core::error::Error;
use core::fmt;

/// How far a column came: the rows that are done, their results, and the refusal that stopped them, if one did.
///
/// Of a refused row, and of the rows after it, there is nothing to be had.
#[derive(Clone, Copy, Debug, PartialEq, Eq)]
#[must_use = "a refusal may have stopped the column: `all` has the results of all rows, or the refusal"]
pub struct Done<'a, T> {
    rows: usize,
    refusal: Option<Refusal>,
    results: &'a [T],
}

impl<'a, T> Done<'a, T> {
    pub(crate) fn new(rows: usize, refusal: Option<Refusal>, results: &'a [T]) -> Done<'a, T> {
        Done {
            rows,
            refusal,
            results,
        }
    }

    /// How many rows are done.
    #[must_use]
    pub fn rows(&self) -> usize {
        self.rows
    }

    /// The row that was refused, counted from 0; nothing where all rows are done, or where the column was refused as a whole.
    #[must_use]
    pub fn refused_row(&self) -> Option<usize> {
        refused_row(self.rows, self.refusal?)
    }

    /// What stopped the rows; nothing where all are done.
    #[must_use]
    pub fn refusal(&self) -> Option<Refusal> {
        self.refusal
    }

    /// The results of the rows that are done: words, instants, or the bytes of either.
    #[must_use]
    pub fn results(&self) -> &'a [T] {
        self.results
    }

    /// The results of every row.
    ///
    /// # Errors
    ///
    /// Where not every row is done: how many are, and the refusal that stopped them.
    pub fn all(self) -> Result<&'a [T], Stopped> {
        match self.refusal {
            None => Ok(self.results),
            Some(refusal) => Err(Stopped {
                rows: self.rows,
                refusal,
            }),
        }
    }
}

/// A column is refused as a whole before its first row is looked at.
fn refused_row(rows: usize, refusal: Refusal) -> Option<usize> {
    match refusal.reason() {
        Reason::Rows | Reason::Column => None,
        _ => Some(rows),
    }
}

/// A column that a refusal stopped.
///
/// ```
/// use sleetrick::{decode_words, Layout, Slot};
/// use std::error::Error;
///
/// let mut room = [Slot::EMPTY; 2];
/// let stopped = decode_words(Layout::FatDos, &[2_162_688, 0], &mut room).all().unwrap_err();
/// assert_eq!(stopped.to_string(), "stopped at row 1, counted from 0: refused 3");
/// assert_eq!(stopped.source().map(|source| source.to_string()), Some(stopped.refusal().to_string()));
/// ```
#[derive(Clone, Copy, Debug, PartialEq, Eq)]
pub struct Stopped {
    rows: usize,
    refusal: Refusal,
}

impl Stopped {
    /// How many rows are done.
    #[must_use]
    pub fn rows(&self) -> usize {
        self.rows
    }

    /// The row that was refused, counted from 0; nothing where the column was refused as a whole.
    #[must_use]
    pub fn refused_row(&self) -> Option<usize> {
        refused_row(self.rows, self.refusal)
    }

    /// What stopped the rows.
    #[must_use]
    pub fn refusal(&self) -> Refusal {
        self.refusal
    }
}

impl fmt::Display for Stopped {
    fn fmt(&self, out: &mut fmt::Formatter) -> fmt::Result {
        let number = self.refusal.number();
        match self.refused_row() {
            Some(row) => write!(
                out,
                "stopped at row {row}, counted from 0: refused {number}"
            ),
            None => write!(out, "the column as a whole: refused {number}"),
        }
    }
}

impl Error for Stopped {
    /// The refusal.
    fn source(&self) -> Option<&(dyn Error + 'static)> {
        Some(&self.refusal)
    }
}
