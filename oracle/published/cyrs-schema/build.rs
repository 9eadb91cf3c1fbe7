use sources::{Build, LeftOut};

/// Every line that names a file of the crate which is not listed.
const LEFT_OUT: &[LeftOut] = &[
    LeftOut::line("mod standard_library;", "standard_library.rs is in no listed source"),
    LeftOut::line("pub use standard_library::StandardLibrary;", "re-export of standard_library.rs"),
    LeftOut::line("pub mod diff;", "diff.rs is in no listed source"),
    LeftOut::line("pub mod lint;", "lint.rs is in no listed source"),
];

fn main() {
    let mut build = Build::new();
    build.module_without("published", "crates/cyrs-schema/src/lib.rs", LEFT_OUT);
    build.beside("in_memory", "crates/cyrs-schema/src/in_memory.rs");
    build.finish();
}
