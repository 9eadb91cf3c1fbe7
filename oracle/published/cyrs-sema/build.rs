use sources::Build;

const CHECK: &str = "crates/cyrs-sema/src/schema_aware.rs";

/// Makes the private helpers of the check askable in a second module.
const DOORS: &str = "
pub fn ask_types_compatible(inferred: &Type, declared: &PropertyType) -> bool {
    types_compatible(inferred, declared)
}

pub fn ask_names(inferred: &Type, declared: &PropertyType) -> (&'static str, &'static str) {
    (type_name(inferred), property_type_name(declared))
}
";

fn main() {
    let mut build = Build::new();
    build.module("schema_aware", CHECK);
    build.module("ty", "crates/cyrs-sema/src/ty.rs");
    build.module_with("helpers", CHECK, DOORS);
    build.finish();
}
