//! Readings 2.4-01 to 2.4-04, by bytes and numbers that were written by hand.

use oracle::answers::{check, message};
use oracle::compare::Difference;
use oracle::join::join_statements;
use oracle::join_run::{JoinTally, run};
use oracle::joins::{JoinCase, Way};
use oracle::sheet::Refusal;
use oracle::tree::Raw;

const LONG: usize = 1 << 20;

/// RETURN f()
#[rustfmt::skip]
const FIRST: &[u8] = &[
    4, 0, 0, 0,  1, 0, 0, 0,  1, 0, 0, 0,
    90, 75, 16, 50,
    1, 0, 0, 0,  1, 0, 0, 0,  0, 0, 0, 0,  0, 0, 0, 0,
    1, 0, 0, 0,
    b'f',
];

/// CALL p() from 7 to 9, with a name before p that nothing uses.
#[rustfmt::skip]
const SECOND: &[u8] = &[
    5, 0, 0, 0,  2, 0, 0, 0,  3, 0, 0, 0,
    90, 85, 51, 51, 50,
    1, 0, 0, 0,  0, 0, 0, 0,  7, 0, 0, 0,  9, 0, 0, 0,  1, 0, 0, 0,
    2, 0, 0, 0,  3, 0, 0, 0,
    b'a', b'b', b'p',
];

/// RETURN f() CALL p()
#[rustfmt::skip]
const JOINED: &[u8] = &[
    8, 0, 0, 0,  3, 0, 0, 0,  4, 0, 0, 0,
    90, 75, 16, 50, 85, 51, 51, 50,
    2, 0, 0, 0,  1, 0, 0, 0,  0, 0, 0, 0,  0, 0, 0, 0,  0, 0, 0, 0,  7, 0, 0, 0,  9, 0, 0, 0,  2, 0, 0, 0,
    1, 0, 0, 0,  3, 0, 0, 0,  4, 0, 0, 0,
    b'f', b'a', b'b', b'p',
];

/// CALL p() RETURN f()
#[rustfmt::skip]
const TURNED: &[u8] = &[
    8, 0, 0, 0,  3, 0, 0, 0,  4, 0, 0, 0,
    90, 85, 51, 51, 50, 75, 16, 50,
    2, 0, 0, 0,  0, 0, 0, 0,  7, 0, 0, 0,  9, 0, 0, 0,  1, 0, 0, 0,  1, 0, 0, 0,  0, 0, 0, 0,  2, 0, 0, 0,
    2, 0, 0, 0,  3, 0, 0, 0,  4, 0, 0, 0,
    b'a', b'b', b'p', b'f',
];

/// A statement without clauses that has one name, "x".
#[rustfmt::skip]
const BARE: &[u8] = &[
    1, 0, 0, 0,  1, 0, 0, 0,  1, 0, 0, 0,
    90,
    0, 0, 0, 0,
    1, 0, 0, 0,
    b'x',
];

/// x f: RETURN f(), its name moved by one.
#[rustfmt::skip]
const BEHIND_BARE: &[u8] = &[
    4, 0, 0, 0,  2, 0, 0, 0,  2, 0, 0, 0,
    90, 75, 16, 50,
    1, 0, 0, 0,  1, 0, 0, 0,  0, 0, 0, 0,  1, 0, 0, 0,
    1, 0, 0, 0,  2, 0, 0, 0,
    b'x', b'f',
];

/// f x: RETURN f().
#[rustfmt::skip]
const BEFORE_BARE: &[u8] = &[
    4, 0, 0, 0,  2, 0, 0, 0,  2, 0, 0, 0,
    90, 75, 16, 50,
    1, 0, 0, 0,  1, 0, 0, 0,  0, 0, 0, 0,  0, 0, 0, 0,
    1, 0, 0, 0,  2, 0, 0, 0,
    b'f', b'x',
];

/// No declaration.
const SCHEMA: &[u8] = &[1, 0, 0, 0, 0, 0, 0, 0, 0, 0, 0, 0, 100, 0, 0, 0, 0];

/// No clause, no name: the shortest sheet.
const EMPTY: &[u8] = &[1, 0, 0, 0, 0, 0, 0, 0, 0, 0, 0, 0, 90, 0, 0, 0, 0];

fn joined(first: &[u8], second: &[u8]) -> Result<Vec<u8>, Refusal> {
    join_statements(first, second, LONG)
}

fn refused(number: u32, sheet: u32, place: u32) -> Result<Vec<u8>, Refusal> {
    Err(Refusal { number, sheet, place })
}

#[test]
fn r_01_the_bytes() {
    assert_eq!(joined(FIRST, SECOND), Ok(JOINED.to_vec()));
    assert_eq!(joined(SECOND, FIRST), Ok(TURNED.to_vec()));
    assert_eq!(joined(EMPTY, EMPTY), Ok(EMPTY.to_vec()));
}

#[test]
fn r_01_equal_texts_are_not_merged() {
    let twice = joined(FIRST, FIRST).expect("two short sheets");
    assert_eq!(twice[..12], [7, 0, 0, 0, 2, 0, 0, 0, 2, 0, 0, 0]);
    assert_eq!(twice[12..19], [90, 75, 16, 50, 75, 16, 50]);
    assert_eq!(twice[19 + 24..], [1, 0, 0, 0, 1, 0, 0, 0, 2, 0, 0, 0, b'f', b'f']);
}

#[test]
fn r_02_refusals_in_turn() {
    // A name of the second is no UTF-8; then it has a byte too many; the first is cut.
    let mut no_utf8 = SECOND.to_vec();
    *no_utf8.last_mut().expect("a byte") = 0xff;
    assert_eq!(joined(FIRST, &no_utf8), refused(5, 2, 1));
    assert_eq!(joined(&no_utf8, FIRST), refused(5, 1, 1));
    let longer = [SECOND, &[0]].concat();
    assert_eq!(joined(&no_utf8, &longer), refused(5, 1, 1));
    assert_eq!(joined(&longer, &no_utf8), refused(3, 1, 0));
    assert_eq!(joined(FIRST, &longer), refused(3, 2, 0));
    assert_eq!(joined(&FIRST[..11], &longer), refused(1, 1, 0));
    assert_eq!(joined(FIRST, &[]), refused(1, 2, 0));
    assert_eq!(join_statements(&[], &[], 0), refused(1, 1, 0));
}

#[test]
fn r_02_both_are_read_as_statements() {
    assert_eq!(joined(SCHEMA, FIRST), refused(6, 1, 0));
    assert_eq!(joined(FIRST, SCHEMA), refused(6, 2, 0));
    // The procedure's span ends before it starts; its name is none of the sheet's.
    let mut turned = SECOND.to_vec();
    turned[25] = 10;
    assert_eq!(joined(FIRST, &turned), refused(6, 2, 3));
    let mut no_name = SECOND.to_vec();
    no_name[33] = 2;
    assert_eq!(joined(&no_name, FIRST), refused(6, 1, 4));
}

/// RETURN of so many nulls less two, with so many names, the first of so many
/// bytes and the others empty.
fn sized(tokens: usize, names: usize, text: usize) -> Vec<u8> {
    let mut all = vec![(1, 0); tokens];
    all[0] = (90, 1);
    all[1] = (75, tokens as u32 - 2);
    let mut texts = vec![Vec::new(); names];
    texts.iter_mut().take(1).for_each(|name| *name = vec![b'n'; text]);
    Raw::new(all, texts).bytes()
}

#[test]
fn r_02_each_limit_and_one_past_it() {
    let length = |first: &[u8], second: &[u8]| joined(first, second).map(|sheet| sheet.len());
    let past = refused(20, 0, 0).map(|_| 0);
    assert_eq!(length(&sized(2_000, 0, 0), &sized(2_097, 0, 0)), Ok(12 + 5 * 4_096));
    assert_eq!(length(&sized(2_000, 0, 0), &sized(2_098, 0, 0)), past);
    assert_eq!(length(EMPTY, &sized(4_096, 0, 0)), Ok(12 + 5 * 4_096));
    assert_eq!(length(&sized(2, 0, 0), &sized(4_096, 0, 0)), past);
    assert_eq!(length(&sized(2, 1_000, 0), &sized(2, 24, 0)), Ok(12 + 5 * 3 + 4 * 1_024));
    assert_eq!(length(&sized(2, 1_000, 0), &sized(2, 25, 0)), past);
    assert_eq!(length(&sized(2, 1, 2_768), &sized(2, 1, 30_000)), Ok(12 + 15 + 8 + 32_768));
    assert_eq!(length(&sized(2, 1, 2_769), &sized(2, 1, 30_000)), past);
    let all = [sized(96, 24, 768), sized(4_001, 1_000, 32_000)];
    assert_eq!(length(&all[0], &all[1]), Ok(57_356));
}

#[test]
fn r_02_the_sheets_come_before_the_limits_and_the_buffer_last() {
    let full = sized(4_096, 1_024, 32_768);
    let longer = [&full[..], &[0]].concat();
    assert_eq!(join_statements(&full, &full, 0), refused(20, 0, 0));
    assert_eq!(join_statements(&full, &longer, 0), refused(3, 2, 0));
    assert_eq!(join_statements(&longer, &full, 0), refused(3, 1, 0));
    for room in 0..JOINED.len() {
        assert_eq!(join_statements(FIRST, SECOND, room), refused(16, 0, 0));
    }
    assert_eq!(join_statements(FIRST, SECOND, JOINED.len()), Ok(JOINED.to_vec()));
}

fn listed(statement: &[u8]) -> Vec<[u32; 7]> {
    let items = check(statement, SCHEMA, LONG).expect("an accepted pair");
    items.iter().map(|item| item.numbers()).collect()
}

#[test]
fn r_03_lists_and_messages() {
    let function = [3006, 0, 0, 2, 0, 0, 0];
    assert_eq!(listed(FIRST), [function]);
    assert_eq!(listed(SECOND), [[3008, 7, 9, 1, 0, 0, 0]]);
    assert_eq!(listed(JOINED), [function, [3008, 7, 9, 4, 0, 0, 1]]);
    assert_eq!(listed(TURNED), [[3008, 7, 9, 1, 0, 0, 0], [3006, 0, 0, 6, 0, 0, 1]]);
    let text = |k| message(JOINED, SCHEMA, k, LONG).expect("an item");
    assert_eq!([text(0), text(1)], [&b"unknown function `f`"[..], b"unknown procedure `p`"]);
}

#[test]
fn r_03_three_statements_both_ways() {
    let left = joined(&joined(FIRST, SECOND).expect("two"), BARE);
    let right = joined(FIRST, &joined(SECOND, BARE).expect("two"));
    assert_eq!(left, right);
    let three = left.expect("three short sheets");
    assert_eq!(three[..12], [8, 0, 0, 0, 4, 0, 0, 0, 5, 0, 0, 0]);
    assert_eq!(three[three.len() - 5..], *b"fabpx");
}

#[test]
fn r_04_without_clauses_on_either_side() {
    assert_eq!(joined(BARE, FIRST), Ok(BEHIND_BARE.to_vec()));
    assert_eq!(joined(FIRST, BARE), Ok(BEFORE_BARE.to_vec()));
    assert_eq!(joined(EMPTY, SECOND), Ok(SECOND.to_vec()));
    assert_eq!(joined(SECOND, EMPTY), Ok(SECOND.to_vec()));
    assert_eq!([listed(BEHIND_BARE), listed(BEFORE_BARE)], [listed(FIRST), listed(FIRST)]);
}

#[test]
fn a_short_run_shows_no_difference_and_misses_nothing() {
    let tally = run(2, 1_000).unwrap_or_else(|what| panic!("{what}"));
    assert_eq!(tally.missing(), Vec::<String>::new());
    assert!(tally.from_both > 300 && tally.threes > 600);
}

#[test]
fn a_tally_that_took_nothing_misses_everything() {
    // 20 refusals, 13 ways, 4 times two kinds, each limit and one past it, past several, lists,
    // three statements.
    assert_eq!(JoinTally::default().missing().len(), 20 + 13 + 4 + 6 + 3);
}

/// FIRST and SECOND with an answer that is expected of them.
fn expecting(expected: Result<Vec<u8>, Refusal>) -> JoinCase {
    let [first, second, third, schema] = [FIRST, SECOND, BARE, SCHEMA].map(<[u8]>::to_vec);
    JoinCase { first, second, third, schema, way: Way::Kept, expected: Some(expected) }
}

#[test]
fn another_answer_than_expected_is_a_difference() {
    let mut tally = JoinTally::default();
    assert_eq!(tally.take(&expecting(Ok(JOINED.to_vec()))), Ok(Ok(JOINED.to_vec())));
    assert_eq!([tally.joins, tally.accepted, tally.from_both, tally.threes], [1; 4]);
    for other in [Ok(TURNED.to_vec()), refused(20, 0, 0)] {
        let Err(Difference(what)) = tally.take(&expecting(other)) else { panic!("taken") };
        assert!(what.starts_with("joined to Ok([8, 0, 0, 0, 3,"), "{what}");
    }
    assert_eq!(tally.joins, 1);
}
