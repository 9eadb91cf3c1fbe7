//! Rows of comma-separated text one by one, and the sheet of a row in memory of its own.
use crate::encode::{MAX_NAMES, MAX_TEXT};
use crate::operations::{next_row, row_statement, NextRow};
use crate::refusal::Refusal;
use std::fmt;

/// Where a text breaks RFC 4180, as an offset in bytes.
#[derive(Clone, Copy, Debug, PartialEq, Eq)]
pub struct Broken {
    pub at: usize,
}

impl fmt::Display for Broken {
    fn fmt(&self, f: &mut fmt::Formatter<'_>) -> fmt::Result {
        write!(f, "the text breaks RFC 4180 at byte {}", self.at)
    }
}

impl std::error::Error for Broken {}

/// The rows of a text, the header first, each as its bytes without the line end. It ends behind the last row, or behind
/// the place where the text breaks RFC 4180.
#[derive(Clone, Debug)]
pub struct Rows<'a> {
    text: &'a [u8],
    /// None behind a break.
    at: Option<usize>,
}

/// Goes over the rows of a text, each of its bytes once.
pub fn rows(text: &[u8]) -> Rows<'_> {
    Rows { text, at: Some(0) }
}

impl<'a> Iterator for Rows<'a> {
    type Item = Result<&'a [u8], Broken>;

    fn next(&mut self) -> Option<Self::Item> {
        match next_row(self.text, self.at?) {
            NextRow::Row { bytes, next } => {
                self.at = Some(next);
                Some(Ok(&self.text[bytes]))
            }
            NextRow::End => None,
            NextRow::Broken { at } => {
                self.at = None;
                Some(Err(Broken { at }))
            }
        }
    }
}

impl std::iter::FusedIterator for Rows<'_> {}

/// The longest sheet of a row: nine tokens and two for each column, a name for the label and for each column.
const LONGEST: usize = {
    let (names, text) = (MAX_NAMES as usize, MAX_TEXT as usize);
    12 + 5 * (9 + 2 * (names - 1)) + 4 * names + text
};

/// The sheet of a row, counted from 0 behind the header. Refusals: those of [`row_statement`] without 16.
pub fn row_sheet(text: &[u8], label: &[u8], row: u32) -> Result<Vec<u8>, Refusal> {
    let mut sheet = vec![0; LONGEST];
    let length = row_statement(text, label, row, &mut sheet)?;
    sheet.truncate(length as usize);
    Ok(sheet)
}
