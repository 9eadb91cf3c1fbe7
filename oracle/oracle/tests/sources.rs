//! The files that were compiled are those of commit c44ba5361e, as published
//! beside document 01.

#[test]
fn the_compiled_sources_are_the_published_ones() {
    let record = [cyrs_sema::RECORD, cyrs_schema::RECORD, cyrs_hir::RECORD].concat();
    for known in [
        "cyrs-sema/src/schema_aware.rs: 29554 bytes, FNV-1a f50104247b3ef221, compiled unchanged",
        "cyrs-sema/src/ty.rs: 7521 bytes, FNV-1a 5bf20b2ff407f513, compiled unchanged",
        "cyrs-schema/src/in_memory.rs: 10947 bytes, FNV-1a a59ab4c068aee5cb, compiled unchanged",
        "cyrs-schema/src/lib.rs: 19578 bytes, FNV-1a 311541f9cd94fce6, compiled without",
        "cyrs-hir/src/lib.rs: 30920 bytes, FNV-1a ddd668f69407ce21, compiled without",
        "cyrs-hir/src/session.rs: 4055 bytes, FNV-1a e1f042786bbfbed7, compiled unchanged",
    ] {
        assert!(record.contains(known), "{known}\n{record}");
    }
}
