//! Sheets in the thin kind, in memory of their own.
use crate::kind::SheetKind;
use crate::operations::{thin_schema, thin_statement};
use crate::refusal::Refusal;

/// A statement's sheet in the thin kind. Refusals: those of [`thin_statement`] without 16.
pub fn thin_statement_sheet(statement: &[u8]) -> Result<Vec<u8>, Refusal> {
    converted(statement, thin_statement)
}

/// A schema's sheet in the thin kind. Refusals: those of [`thin_schema`] without 16.
pub fn thin_schema_sheet(schema: &[u8]) -> Result<Vec<u8>, Refusal> {
    converted(schema, thin_schema)
}

/// A thin sheet is never longer than the sheet it was made of.
fn converted(
    sheet: &[u8],
    ask: impl Fn(&[u8], &mut [u8]) -> Result<u32, Refusal>,
) -> Result<Vec<u8>, Refusal> {
    let mut thin = vec![0; sheet.len().min(SheetKind::Thin.longest())];
    let length = ask(sheet, &mut thin)?;
    thin.truncate(length as usize);
    Ok(thin)
}
