//! Both sides on the same sheets and texts: every public operation of the archive that
//! Rattle's crates give, held against the oracle's answers, and all memory
//! that was lent to it.

pub mod ask;
mod ask_join;
mod ask_rows;
mod ask_thin;
pub mod cases;
pub mod count;
pub mod known;
pub mod lengths;
pub mod lent;
mod lookups;
pub mod notice;
mod notice_thin;
pub mod operation;
pub mod run;
