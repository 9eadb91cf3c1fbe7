#![doc = include_str!("../README.md")]

mod diagnostic;
pub mod encode;
mod join;
mod kind;
mod names;
mod operations;
pub mod raw;
mod refusal;
mod rows;
mod thin;

pub use diagnostic::{diagnostics, margin, message_text, Diagnostic, Diagnostics, Span};
pub use join::joined_sheet;
pub use kind::SheetKind;
pub use names::{endpoints, labels, parameters, rel_types, Names};
pub use operations::{
    check, join_statements, label_names, margin_list, message, next_row, parameter_names,
    read_schema, read_statement, rel_type_names, relationship_endpoints, row_statement,
    schema_digest, thin_schema, thin_statement, NextRow,
};
pub use refusal::{Refusal, Sheet};
pub use rows::{row_sheet, rows, Broken, Rows};
pub use thin::{thin_schema_sheet, thin_statement_sheet};
