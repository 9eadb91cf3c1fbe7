//! Request 2.6 from document 02: a statement or schema sheet in the thin kind,
//! with the same tokens and names. A sheet that is thin already is copied.

use crate::sheet::{Refusal, Sheet, SheetKind, fits, read_schema, read_statement};

/// In a thin sheet the token count has this bit beside the tokens.
const TOP_BIT: u32 = 0x8000_0000;

/// A statement's thin sheet, with as many bytes lent as `room` says.
pub fn thin_statement(bytes: &[u8], room: usize) -> Result<Vec<u8>, Refusal> {
    let sheet = read_statement(bytes)?;
    in_room(bytes, &sheet, room)
}

/// A schema's, after 10 to 13 too.
pub fn thin_schema(bytes: &[u8], room: usize) -> Result<Vec<u8>, Refusal> {
    let sheet = read_schema(bytes)?;
    in_room(bytes, &sheet, room)
}

/// 16 where the thin sheet is longer.
fn in_room(bytes: &[u8], sheet: &Sheet, room: usize) -> Result<Vec<u8>, Refusal> {
    let thin = match SheetKind::of(bytes) {
        SheetKind::First => written(sheet),
        SheetKind::Thin => bytes.to_vec(),
    };
    fits(thin.len(), room).map(|()| thin)
}

/// The three sizes, the first with the mark, the kinds, the values, the ends, the
/// text.
fn written(sheet: &Sheet) -> Vec<u8> {
    let text = sheet.names.concat();
    let [t, m, b] = [sheet.tokens.len(), sheet.names.len(), text.len()].map(|size| size as u32);
    let mut bytes: Vec<u8> = [t | TOP_BIT, m, b].into_iter().flat_map(u32::to_le_bytes).collect();
    bytes.extend(sheet.tokens.iter().map(|token| token.kind));
    bytes.extend(sheet.tokens.iter().flat_map(|token| token.value.to_le_bytes()));
    bytes.extend(ends(sheet).into_iter().flat_map(u16::to_le_bytes));
    bytes.extend(text.as_bytes());
    bytes
}

/// Where each name ends; no text passes 32,768 bytes.
fn ends(sheet: &Sheet) -> Vec<u16> {
    let mut end = 0;
    let after = |name: &String| {
        end += name.len() as u16;
        end
    };
    sheet.names.iter().map(after).collect()
}
