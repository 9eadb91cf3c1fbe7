//! Two statements as one paper, in memory of its own.
use crate::encode::MAX_NAMES;
use crate::kind::SheetKind;
use crate::operations::join_statements;
use crate::refusal::Refusal;

/// What two sheets have and the joined one does not: the three sizes and a token 0.
const SPARED: usize = 12 + 5;

/// What the ends of a sheet's names take more in a joined sheet than in a thin one, at most.
const WIDENED: usize =
    (SheetKind::First.end_width() - SheetKind::Thin.end_width()) * MAX_NAMES as usize;

/// The joined sheet of two statements; for three it is joined once more. Refusals: those of [`join_statements`] without
/// 16.
pub fn joined_sheet(first: &[u8], second: &[u8]) -> Result<Vec<u8>, Refusal> {
    let length = (room(first) + room(second)).saturating_sub(SPARED);
    let mut sheet = vec![0; length.min(SheetKind::First.longest())];
    let length = join_statements(first, second, &mut sheet)?;
    sheet.truncate(length as usize);
    Ok(sheet)
}

/// The most bytes that a sheet has in the first kind.
fn room(sheet: &[u8]) -> usize {
    match SheetKind::of(sheet) {
        SheetKind::First => sheet.len(),
        SheetKind::Thin => sheet.len() + WIDENED,
    }
}
