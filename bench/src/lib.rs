//! The benchmark: the published Rust and the proved checker on the same
//! generated sheets, timed and counted by one driver.

pub mod count;
pub mod input;
pub mod join_report;
pub mod joins;
pub mod machine;
pub mod measure;
pub mod papers;
pub mod plot;
pub mod profile;
pub mod report;
pub mod schemas;
pub mod shape;
pub mod statistics;
pub mod table;
pub mod text_report;
pub mod texts;
pub mod thin_report;
pub mod thins;
pub mod worst;
pub mod worst_papers;
pub mod worst_report;
pub mod worst_schemas;
