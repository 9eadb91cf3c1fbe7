//! The two kinds of sheets. They differ in the width of name ends, and in the mark that tells of it.
use crate::encode::{MAX_NAMES, MAX_TEXT, MAX_TOKENS};

/// In a token count the bit that marks a thin sheet; the others count.
const THIN_MARK: u32 = 1 << 31;

/// The kind of a sheet: document 01's, or the thin one of document 02, in which a name's end has two bytes in place of
/// four. Both are read by every operation, also one of each in a call.
#[derive(Clone, Copy, Debug, Default, PartialEq, Eq)]
pub enum SheetKind {
    #[default]
    First,
    Thin,
}

impl SheetKind {
    /// That of a sheet, by its token count. Bytes that are too short for one have the first.
    pub fn of(sheet: &[u8]) -> Self {
        match sheet.first_chunk() {
            Some(count) if u32::from_le_bytes(*count) & THIN_MARK != 0 => SheetKind::Thin,
            _ => SheetKind::First,
        }
    }

    /// The most bytes that a sheet of that kind has.
    pub const fn longest(self) -> usize {
        12 + 5 * MAX_TOKENS as usize + self.end_width() * MAX_NAMES as usize + MAX_TEXT as usize
    }

    /// What the token count has beside the tokens.
    pub(crate) fn mark(self) -> u32 {
        match self {
            SheetKind::First => 0,
            SheetKind::Thin => THIN_MARK,
        }
    }

    /// Bytes of a name's end.
    pub(crate) const fn end_width(self) -> usize {
        match self {
            SheetKind::First => 4,
            SheetKind::Thin => 2,
        }
    }
}
