use super::{MAX_DEPTH, MAX_LISTS, MAX_NAMES, MAX_PARAMETERS, MAX_TEXT, MAX_TOKENS};
use crate::Span;
use std::fmt;

/// Why a value has no sheet.
#[derive(Clone, Copy, Debug, PartialEq, Eq)]
pub enum EncodeError {
    /// More than [`MAX_TOKENS`].
    TooManyTokens,
    /// More distinct texts than [`MAX_NAMES`].
    TooManyNames,
    /// The distinct texts have more bytes than [`MAX_TEXT`].
    TooMuchText,
    /// A token deeper than [`MAX_DEPTH`]; the statement has depth 0.
    TooDeep,
    /// A span's end is below its start.
    EndBelowStart(Span),
    /// So many lists in a type, more than [`MAX_LISTS`].
    TooManyLists(u32),
    /// So many parameters of a function, more than [`MAX_PARAMETERS`].
    TooManyParameters(u32),
}

impl fmt::Display for EncodeError {
    fn fmt(&self, f: &mut fmt::Formatter<'_>) -> fmt::Result {
        use EncodeError::*;
        match self {
            TooManyTokens => write!(f, "a sheet has at most {MAX_TOKENS} tokens"),
            TooManyNames => write!(f, "a sheet has at most {MAX_NAMES} names"),
            TooMuchText => write!(f, "the names of a sheet have at most {MAX_TEXT} bytes"),
            TooDeep => write!(f, "a token of a sheet is at most {MAX_DEPTH} deep"),
            EndBelowStart(Span { start, end }) => {
                write!(f, "a span ends at {end}, before its start {start}")
            }
            TooManyLists(lists) => write!(f, "a type of {lists} lists: {MAX_LISTS} at most"),
            TooManyParameters(parameters) => {
                write!(f, "a function of {parameters} parameters: {MAX_PARAMETERS} at most")
            }
        }
    }
}

impl std::error::Error for EncodeError {}
