//! Readings 2.6-01 to 2.6-04, by bytes and numbers that were written by hand.

use oracle::answers::{check, label_names, margin_list, message, schema_digest};
use oracle::compare::Difference;
use oracle::join::join_statements;
use oracle::limits;
use oracle::run::{Case, Tally};
use oracle::sample;
use oracle::sheet::{Refusal, SheetKind, Which, read_schema, read_statement};
use oracle::thin::{thin_schema, thin_statement};
use oracle::thin_run::{LONGEST_THIN, ThinTally, judged};
use oracle::tree::Raw;

const LONG: usize = 1 << 20;

/// RETURN f(), with a name before f that nothing uses.
#[rustfmt::skip]
const FIRST: &[u8] = &[
    4, 0, 0, 0,  2, 0, 0, 0,  3, 0, 0, 0,
    90, 75, 16, 50,
    1, 0, 0, 0,  1, 0, 0, 0,  0, 0, 0, 0,  1, 0, 0, 0,
    2, 0, 0, 0,  3, 0, 0, 0,
    b'a', b'b', b'f',
];

#[rustfmt::skip]
const THIN: &[u8] = &[
    4, 0, 0, 0x80,  2, 0, 0, 0,  3, 0, 0, 0,
    90, 75, 16, 50,
    1, 0, 0, 0,  1, 0, 0, 0,  0, 0, 0, 0,  1, 0, 0, 0,
    2, 0,  3, 0,
    b'a', b'b', b'f',
];

/// A label A and a function f of one parameter.
#[rustfmt::skip]
const SCHEMA: &[u8] = &[
    5, 0, 0, 0,  2, 0, 0, 0,  2, 0, 0, 0,
    100, 101, 50, 104, 50,
    2, 0, 0, 0,  0, 0, 0, 0,  0, 0, 0, 0,  2, 0, 0, 0,  1, 0, 0, 0,
    1, 0, 0, 0,  2, 0, 0, 0,
    b'A', b'f',
];

#[rustfmt::skip]
const THIN_SCHEMA: &[u8] = &[
    5, 0, 0, 0x80,  2, 0, 0, 0,  2, 0, 0, 0,
    100, 101, 50, 104, 50,
    2, 0, 0, 0,  0, 0, 0, 0,  0, 0, 0, 0,  2, 0, 0, 0,  1, 0, 0, 0,
    1, 0,  2, 0,
    b'A', b'f',
];

fn of_statement<T>(number: u32, place: u32) -> Result<T, Refusal> {
    Err(Refusal { number, sheet: 1, place })
}

fn of_schema<T>(number: u32, place: u32) -> Result<T, Refusal> {
    Err(Refusal { number, sheet: 2, place })
}

/// The bytes with another one at a place.
fn with(bytes: &[u8], at: usize, byte: u8) -> Vec<u8> {
    let mut bytes = bytes.to_vec();
    bytes[at] = byte;
    bytes
}

#[test]
fn a_thin_sheet_reads_as_the_same_document() {
    assert_eq!(read_statement(THIN).expect("thin"), read_statement(FIRST).expect("first"));
    assert_eq!(read_schema(THIN_SCHEMA).expect("thin"), read_schema(SCHEMA).expect("first"));
    assert_eq!([FIRST, THIN].map(SheetKind::of), SheetKind::ALL);
    // Without names the mark alone tells the kinds apart.
    let empty = [&[1, 0, 0, 0x80][..], &[0; 8], &[90], &[0; 4]].concat();
    assert!(read_statement(&empty).is_ok());
    assert!(read_statement(&with(&empty, 3, 0)).is_ok());
}

#[test]
fn either_kind_in_a_call_gives_one_answer() {
    for statement in [FIRST, THIN] {
        for schema in [SCHEMA, THIN_SCHEMA] {
            let items = check(statement, schema, LONG).expect("accepted");
            assert_eq!(items.len(), 1);
            assert_eq!(items[0].numbers(), [3007, 0, 0, 2, 0, 0, 0]);
            assert_eq!(margin_list(statement, schema, LONG), Ok(items));
            let text = message(statement, schema, 0, LONG).expect("item 0");
            assert_eq!(text, b"function `f` expects exactly 1 argument(s) but got 0");
        }
    }
    assert_eq!(label_names(THIN_SCHEMA, LONG), Ok(vec![0]));
    assert_eq!(schema_digest(THIN_SCHEMA), schema_digest(SCHEMA));
}

#[test]
fn joined_sheets_are_of_the_first_kind() {
    let joined = join_statements(FIRST, FIRST, LONG);
    assert_eq!(SheetKind::of(joined.as_ref().expect("short")), SheetKind::First);
    for [one, other] in [[FIRST, THIN], [THIN, FIRST], [THIN, THIN]] {
        assert_eq!(join_statements(one, other, LONG), joined);
    }
}

#[test]
fn refusals_of_thin_sheets_in_turn() {
    let refused = [
        (THIN[..11].to_vec(), 1, 0),
        (with(THIN, 0, 0), 2, 0),
        (with(&with(THIN, 0, 1), 1, 0x10), 2, 0),
        (with(THIN, 3, 0x90), 2, 0),
        (with(THIN, 7, 0x80), 2, 0),
        (with(THIN, 11, 0x80), 2, 0),
        (with(FIRST, 3, 0x80), 3, 0),
        (with(THIN, 3, 0), 3, 0),
        ([THIN, &[0]].concat(), 3, 0),
        (THIN[..THIN.len() - 1].to_vec(), 3, 0),
        // The ends stand at 32 and 34: one falls, passes the text, stops short.
        (with(THIN, 34, 1), 4, 1),
        (with(THIN, 32, 4), 4, 0),
        (with(THIN, 35, 0x80), 4, 1),
        (with(THIN, 34, 2), 4, 2),
        (with(THIN, 37, 0xff), 5, 0),
        (with(THIN, 12, 100), 6, 0),
    ];
    for (sheet, number, place) in refused {
        assert_eq!(read_statement(&sheet).map(|_| ()), of_statement(number, place), "{sheet:?}");
        assert_eq!(thin_statement(&sheet, 0), of_statement(number, place));
        assert_eq!(check(&sheet, THIN_SCHEMA, LONG), of_statement(number, place));
    }
}

#[test]
fn the_converter_by_hand() {
    assert_eq!(thin_statement(FIRST, LONG), Ok(THIN.to_vec()));
    assert_eq!(thin_schema(SCHEMA, LONG), Ok(THIN_SCHEMA.to_vec()));
    // A thin sheet is copied.
    assert_eq!(thin_statement(THIN, LONG), Ok(THIN.to_vec()));
    assert_eq!(thin_schema(THIN_SCHEMA, LONG), Ok(THIN_SCHEMA.to_vec()));
}

#[test]
fn sixteen_comes_last() {
    let short = Err(Refusal::neither(16));
    for sheet in [FIRST, THIN] {
        assert_eq!(thin_statement(sheet, THIN.len()), Ok(THIN.to_vec()));
        assert_eq!(thin_statement(sheet, THIN.len() - 1), short);
        assert_eq!(thin_statement(sheet, 0), short);
    }
    assert_eq!(thin_schema(SCHEMA, THIN_SCHEMA.len() - 1), short);
    assert_eq!(thin_statement(SCHEMA, 0), of_statement(6, 0));
    assert_eq!(thin_schema(FIRST, 0), of_schema(6, 0));
    assert_eq!(thin_schema(&[], 0), of_schema(1, 0));
    // 10 and 13 too.
    let again = Raw::new(vec![(100, 2), (101, 0), (50, 0), (101, 0), (50, 0)], vec![vec![b'A']]);
    let equal = Raw::new(vec![(100, 1), (106, 0), (50, 0), (50, 0)], vec![vec![b'A']]);
    for kind in SheetKind::ALL {
        assert_eq!(thin_schema(&again.clone().in_kind(kind).bytes(), 0), of_schema(10, 3));
        assert_eq!(thin_schema(&equal.clone().in_kind(kind).bytes(), 0), of_schema(13, 1));
    }
}

#[test]
fn the_longest_thin_sheet() {
    let longest = |case: &Case| case.statement.len() == LONGEST_THIN;
    let accepted = |case: &Case| case.expected == Some(Ok(()));
    let found = limits::cases().into_iter().find(|case| longest(case) && accepted(case));
    let Case { statement, schema, .. } = found.expect("a full sheet");
    assert_eq!([statement.len(), schema.len()], [55_308, 55_308]);
    assert_eq!(thin_statement(&statement, LONGEST_THIN), Ok(statement.clone()));
    // The last end is 32,768.
    assert_eq!(statement[12 + 5 * 4_096 + 2 * 1_023..][..2], [0, 0x80]);
    let more = [&statement[..], &[0]].concat();
    assert_eq!(read_statement(&more).map(|_| ()), of_statement(3, 0));
}

#[test]
fn a_wrong_refusal_of_a_thin_sheet_differs() {
    let expected = Some(Ok(()));
    let (statement, schema) = (with(THIN, 0, 0), SCHEMA.to_vec());
    let taken = Tally::default().take(&Case { statement, schema, expected });
    assert!(matches!(taken, Err(Difference(what)) if what.contains("made to be")));
}

#[test]
fn pairs_are_counted_by_their_kinds() {
    let mut tally = ThinTally::default();
    let case = Case::accepted(THIN.to_vec(), SCHEMA.to_vec());
    assert_eq!(tally.take(&case, Ok(())), Ok(()));
    assert_eq!(
        tally.pairs.into_iter().collect::<Vec<_>>(),
        [([SheetKind::Thin, SheetKind::First], 1)]
    );
    let missing = ThinTally::default().missing();
    assert!(missing.contains(&"an accepted pair of kinds [Thin, Thin]".to_owned()));
    assert!(missing.contains(&"refusal 13 of a thin sheet 2".to_owned()));
    assert_eq!(judged(Which::Statement, FIRST), Ok(Ok(THIN.to_vec())));
}

#[test]
fn the_sample_has_pairs_of_all_kinds() {
    let cases = sample::cases(sample::SEED, sample::PAIRS);
    let thin = |case: &&Case| [&case.statement, &case.schema].map(|s| SheetKind::of(s));
    let mixed = cases.iter().filter(|case| thin(case) != [SheetKind::First; 2]).count();
    assert!((100..150).contains(&mixed), "{mixed}");
}
