//! A short comparison, and the stored samples made again.

use oracle::{join_sample, notice, row_sample, run, sample};

#[test]
fn a_short_run_shows_no_difference_and_misses_nothing() {
    let tally = run::run(2, 4_000).unwrap_or_else(|what| panic!("{what}"));
    assert_eq!(tally.missing(), Vec::<String>::new());
}

#[test]
fn the_stored_sample_is_what_its_seed_gives() {
    let path = concat!(env!("CARGO_MANIFEST_DIR"), "/../../crates/replay/data/sample.bin");
    let stored = std::fs::read(path).expect("the stored sample");
    assert!(stored.len() <= 400_000);
    let made = sample::sample(sample::SEED, sample::PAIRS);
    assert!(stored == made, "sample.bin is not what its seed gives");
}

#[test]
fn the_sample_has_every_code_refusal_and_kind() {
    assert_eq!(sample::missing(sample::SEED, sample::PAIRS), Ok(vec![]));
}

#[test]
fn the_stored_rows_are_what_their_seed_gives() {
    let path = concat!(env!("CARGO_MANIFEST_DIR"), "/../../crates/replay_rows/data/rows.bin");
    let stored = std::fs::read(path).expect("the stored rows");
    assert!(stored.len() <= 200_000);
    let made = row_sample::sample(sample::SEED, row_sample::TEXTS);
    assert!(stored == made, "rows.bin is not what its seed gives");
}

#[test]
fn the_stored_rows_have_every_refusal_kind_of_cell_and_way() {
    assert_eq!(row_sample::missing(sample::SEED, row_sample::TEXTS), Ok(vec![]));
}

#[test]
fn the_stored_joins_are_what_their_seed_gives() {
    let path = concat!(env!("CARGO_MANIFEST_DIR"), "/../../crates/replay_joins/data/joins.bin");
    let stored = std::fs::read(path).expect("the stored joins");
    assert!(stored.len() <= 250_000);
    let made = join_sample::sample(sample::SEED, join_sample::JOINS);
    assert!(stored == made, "joins.bin is not what its seed gives");
}

#[test]
fn the_stored_joins_have_every_refusal_way_and_limit() {
    assert_eq!(join_sample::missing(sample::SEED, join_sample::JOINS), Ok(vec![]));
    let large = |case: &oracle::joins::JoinCase| case.first.len() + case.second.len() > 5_000;
    let cases = join_sample::cases(sample::SEED, join_sample::JOINS);
    assert_eq!(cases.iter().filter(|case| large(case)).count(), 4);
}

#[test]
fn every_changed_rule_of_the_notice_run_can_be_applied() {
    for change in notice::CHANGES {
        assert!(change.applies(), "{}", change.rule);
    }
}
