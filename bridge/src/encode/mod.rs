//! Sheets from plain Rust values. The types have a place for whatever document 01's grammars take and for nothing
//! else, so what is encoded is read again without refusals 1 to 9. What a type cannot exclude is an [`EncodeError`];
//! of several the first in the sheet's order is given.
//!
//! Refusals 10 to 13 (a declaration that repeats another, labels apart from themselves) are no matter of form. They
//! are left to the proved [`read_schema`](crate::read_schema), so that they are decided in one place.
//!
//! A sheet is of the first kind unless the thin one is asked for; a value has either or neither, and both are the same
//! document.
//!
//! Equal texts share one name number, and names are numbered by first use. A diagnostic's owner and a refusal's place
//! count tokens from 0 in the order of the values: each value of a type that is encoded is one, each name one, each
//! span two.
mod error;
mod schema;
mod statement;
mod writer;

use crate::SheetKind;

pub use error::EncodeError;
pub use schema::{BaseType, Declaration, LabelItem, Property, PropertyType, RelTypeItem, Schema};
pub use statement::{
    Clause, Element, ElementKind, Expr, MapItem, Part, Pattern, RemoveItem, SetItem, Statement,
};

/// Document 01's limits of a sheet.
pub const MAX_TOKENS: u32 = 4_096;
pub const MAX_NAMES: u32 = 1_024;
pub const MAX_TEXT: u32 = 32_768;
pub const MAX_DEPTH: u32 = 64;
/// The most lists of a property's type.
pub const MAX_LISTS: u32 = 63;
/// The most parameters of a function.
pub const MAX_PARAMETERS: u32 = u32::MAX / 2;

/// The sheet of a statement, which `read_statement` accepts.
pub fn encode_statement(statement: &Statement) -> Result<Vec<u8>, EncodeError> {
    writer::sheet(statement, SheetKind::First)
}

/// The sheet of a schema, which `read_schema` accepts unless 10 to 13 hold.
pub fn encode_schema(schema: &Schema) -> Result<Vec<u8>, EncodeError> {
    writer::sheet(schema, SheetKind::First)
}

/// The same in the thin kind: what [`thin_statement`](crate::thin_statement) makes of it.
pub fn encode_thin_statement(statement: &Statement) -> Result<Vec<u8>, EncodeError> {
    writer::sheet(statement, SheetKind::Thin)
}

/// The same in the thin kind: what [`thin_schema`](crate::thin_schema) makes of it.
pub fn encode_thin_schema(schema: &Schema) -> Result<Vec<u8>, EncodeError> {
    writer::sheet(schema, SheetKind::Thin)
}
