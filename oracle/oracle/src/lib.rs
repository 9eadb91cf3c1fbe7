//! The oracle: document 01 a second time, in Rust, held against the published
//! `check_schema_aware` and `InMemorySchema` at every answer; and document 02's
//! rows and joined sheets, which have no published Rust, its margin list and its
//! lookup of functions; and its thin sheets.

pub mod answers;
pub mod build;
pub mod cased;
pub mod collide;
pub mod compare;
pub mod counts;
pub mod damage;
pub mod decode;
pub mod folded;
pub mod generate;
pub mod grammar;
pub mod hostile;
pub mod items;
pub mod join;
pub mod join_run;
pub mod join_sample;
pub mod joins;
pub mod limits;
pub mod margin;
pub mod messages;
pub mod notation;
pub mod notice;
pub mod rng;
pub mod row_sample;
pub mod rows;
pub mod run;
pub mod sample;
pub mod sheet;
pub mod shrink;
pub mod store;
pub mod store_answers;
pub mod text_run;
pub mod texts;
pub mod thin;
pub mod thin_run;
pub mod tree;
