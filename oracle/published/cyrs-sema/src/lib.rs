//! The published check, `schema_aware.rs`, with the types it needs, `ty.rs`.
//! `helpers` is the same check once more with its type helpers askable; only
//! the test of 01's table of 15 by 9 uses it.

include!(concat!(env!("OUT_DIR"), "/modules.rs"));

/// Which files were compiled.
pub const RECORD: &str = include_str!(concat!(env!("OUT_DIR"), "/record.txt"));
