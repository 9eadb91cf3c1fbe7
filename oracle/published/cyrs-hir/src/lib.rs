//! The published `cyrs-hir`, less the lines that build.rs leaves out.
#![allow(invalid_doc_attributes)]

include!(concat!(env!("OUT_DIR"), "/modules.rs"));
pub use published::*;

/// Which files were compiled, and which lines were left out and why.
pub const RECORD: &str = include_str!(concat!(env!("OUT_DIR"), "/record.txt"));
