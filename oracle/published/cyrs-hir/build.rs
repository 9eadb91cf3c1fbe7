use sources::{Build, LeftOut};

/// Every line that names a file of the crate which is not listed, and the one
/// function that calls into such a file.
const LEFT_OUT: &[LeftOut] = &[
    LeftOut::line("pub mod catalog;", "catalog.rs is in no listed source"),
    LeftOut::line("pub mod desugar;", "desugar.rs is in no listed source"),
    LeftOut::line("pub mod error;", "error.rs is in no listed source"),
    LeftOut::line("pub mod lower;", "lower.rs is in no listed source"),
    LeftOut::line("pub mod pretty;", "pretty.rs is in no listed source"),
    LeftOut::line("pub mod scope;", "scope.rs is in no listed source"),
    LeftOut::line("pub mod visit;", "visit.rs is in no listed source"),
    LeftOut::block("pub use catalog::{", "};", "re-export of catalog.rs"),
    LeftOut::line("pub use error::HirLowerError;", "re-export of error.rs"),
    LeftOut::line("pub use lower::{lower_parse, lower_statement};", "re-export of lower.rs"),
    LeftOut::block("pub use scope::{", "};", "re-export of scope.rs"),
    LeftOut::line(
        "pub use visit::{Visitor, walk_clause, walk_expr, walk_statement};",
        "re-export of visit.rs",
    ),
    LeftOut::block(
        "/// Parse `src` and lower it to HIR in a single call (cy-emb1).",
        "}",
        "parse_to_hir calls lower.rs and the parser",
    ),
];

fn main() {
    let mut build = Build::new();
    build.module_without("published", "crates/cyrs-hir/src/lib.rs", LEFT_OUT);
    build.beside("session", "crates/cyrs-hir/src/session.rs");
    build.finish();
}
