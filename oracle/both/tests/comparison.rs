//! A short comparison of both sides, and changed answers that it must report.

use both::cases::cases;
use both::notice::notice;
use both::run::Run;

#[test]
fn a_short_run_shows_no_difference_and_misses_nothing() {
    let ended = Run { seed: 2, pairs: 4_000, threads: 2 }.compare(None);
    assert_eq!(ended.differences, Vec::<String>::new());
    assert_eq!(ended.count.missing(), Vec::<String>::new());
}

#[test]
fn every_changed_answer_is_reported() {
    for noticed in notice(Run { seed: 1, pairs: 3_000, threads: 1 }) {
        let (operation, what) = (noticed.change.operation, noticed.change.what);
        assert!(noticed.rightly(), "{operation:?}, {what}: {:?}", noticed.difference);
    }
}

#[test]
fn a_run_too_short_misses_something() {
    let ended = Run { seed: 2, pairs: 10, threads: 1 }.compare(None);
    assert_eq!(ended.differences, Vec::<String>::new());
    assert!(ended.count.missing().contains(&"refusal 12 of sheet 2".to_owned()));
    assert!(ended.count.missing().contains(&"ReadSchema: answer 12 of sheet 2".to_owned()));
}

#[test]
fn prefixes_of_every_length_follow_the_first_pair() {
    let cases = cases(1, 0);
    let longest = cases.iter().skip(1).map(|case| case.statement.len()).max();
    let cut: Vec<usize> = cases.iter().skip(1).map(|case| case.statement.len()).collect();
    assert!((0..longest.expect("prefixes")).all(|length| cut.contains(&length)));
}
