//! Thin sheets: what the converters write, that both kinds are one document to every operation, and the encoder's.
use crate::support::{example, example_schema, example_statement, noted, sheet, thin_sheet, Make};
use nurbellat::encode::*;
use nurbellat::Sheet::{Neither, Schema as OfSchema, Statement as OfStatement};
use nurbellat::*;

fn drawn(number: u32, sheet: Sheet, place: u32) -> Refusal {
    Refusal { number, sheet, place }
}

/// MATCH (:A) RETURN f(), the node from 6 to 10, with a name that nothing uses.
const TOKENS: &str = "90.2 70 60.1 61.1 62.2 51.6 51.10 50.2 75.1 16 50.0";
const NAMES: &[&[u8]] = &[b"f", "é".as_bytes(), b"A"];

/// Labels b and a, a type from b to a and from b to b, a parameter, a function.
const DECLARED: &str =
    "100.5 101 50.1 101 50.0 102.3 50.2 112 50.1 113 50.0 113 50.1 103 50.3 121 104.3 50.3";
const DECLARED_NAMES: &[&[u8]] = &[b"a", b"b", b"TO", b"x"];

#[test]
fn the_thin_sheet() {
    let (first, thin) = (sheet(&noted(TOKENS), NAMES), thin_sheet(&noted(TOKENS), NAMES));
    assert_eq!(thin.len(), first.len() - 2 * NAMES.len());
    assert_eq!(thin_statement_sheet(&first), Ok(thin.clone()));
    assert_eq!(thin_statement_sheet(&thin), Ok(thin.clone()));
    assert_eq!([&first, &thin].map(|s| SheetKind::of(s)), [SheetKind::First, SheetKind::Thin]);
    let (first, thin) =
        (sheet(&noted(DECLARED), DECLARED_NAMES), thin_sheet(&noted(DECLARED), DECLARED_NAMES));
    assert_eq!(thin_schema_sheet(&first), Ok(thin.clone()));
    assert_eq!(thin_schema_sheet(&thin), Ok(thin));
}

/// Without names there is nothing to spare, and the mark alone is added.
#[test]
fn a_sheet_without_names() {
    let (first, thin) = (sheet(&noted("90"), &[]), thin_sheet(&noted("90"), &[]));
    assert_eq!((first.len(), thin.len()), (17, 17));
    assert_eq!(thin_statement_sheet(&first), Ok(thin.clone()));
    assert_eq!((read_statement(&first), read_statement(&thin)), (Ok(()), Ok(())));
}

#[test]
fn the_encoder_writes_either_kind() {
    let (statement, schema) = example();
    let thin = encode_thin_statement(&example_statement()).expect("a small statement");
    let thin_schema = encode_thin_schema(&example_schema()).expect("a small schema");
    assert_eq!((thin.len(), thin_schema.len()), (98, 99));
    assert_eq!(thin_statement_sheet(&statement), Ok(thin));
    assert_eq!(thin_schema_sheet(&schema), Ok(thin_schema));
}

/// Code, start, end, owner and message of each breach.
fn lines(found: Result<Diagnostics, Refusal>) -> Vec<String> {
    let found = found.expect("an accepted pair");
    found.map(|(item, message)| format!("{item} {message}")).collect()
}

#[test]
fn one_of_each_kind_in_a_call() {
    let (statement, schema) = example();
    let statements = [statement.clone(), thin_statement_sheet(&statement).expect("a statement")];
    let schemas = [schema.clone(), thin_schema_sheet(&schema).expect("a schema")];
    let expected = lines(diagnostics(&statement, &schema));
    assert_eq!(expected.len(), 2);
    for statement in &statements {
        for schema in &schemas {
            assert_eq!(lines(diagnostics(statement, schema)), expected);
            assert_eq!(lines(margin(statement, schema)), expected);
        }
    }
}

#[test]
fn the_store_of_a_thin_schema() {
    let schema = thin_sheet(&noted(DECLARED), DECLARED_NAMES);
    assert_eq!(labels(&schema), Ok(vec!["a", "b"]));
    assert_eq!(rel_types(&schema), Ok(vec!["TO"]));
    assert_eq!(parameters(&schema), Ok(vec!["x"]));
    assert_eq!(endpoints(&schema, "TO"), Ok(vec![("b", "a"), ("b", "b")]));
    assert_eq!(schema_digest(&schema), schema_digest(&sheet(&noted(DECLARED), DECLARED_NAMES)));
    let names = Names::of(&schema).expect("a sheet of four names");
    assert_eq!([2, 3, 4].map(|number| names.get(number)), [Some("TO"), Some("x"), None]);
}

/// A joined sheet is of the first kind, and so has more bytes for its ends than two thin ones have.
#[test]
fn thin_statements_joined() {
    let (first, thin) = (sheet(&noted(TOKENS), NAMES), thin_sheet(&noted(TOKENS), NAMES));
    let joined = joined_sheet(&first, &first).expect("short sheets");
    assert_eq!(SheetKind::of(&joined), SheetKind::First);
    for [one, other] in [[&first, &thin], [&thin, &first], [&thin, &thin]] {
        assert_eq!(joined_sheet(one, other), Ok(joined.clone()));
    }
    let many = |make: Make| make(&noted("90"), &[&[][..]; 512]);
    let joined = joined_sheet(&many(sheet), &many(sheet));
    assert_eq!(joined.as_ref().map(Vec::len), Ok(17 + 4 * 1_024));
    assert_eq!(joined_sheet(&many(thin_sheet), &many(thin_sheet)), joined);
}

/// RETURN of nulls up to 4,096 tokens, and 1,024 names of 32,768 bytes together, all of them in the first.
fn longest(make: Make) -> Vec<u8> {
    let mut tokens = vec![(1, 0); 4_096];
    tokens[0] = (90, 1);
    tokens[1] = (75, 4_094);
    let long = vec![b'n'; 32_768];
    let mut names: Vec<&[u8]> = vec![b""; 1_024];
    names[0] = &long;
    make(&tokens, &names)
}

#[test]
fn the_longest_sheets() {
    let (first, thin) = (longest(sheet), longest(thin_sheet));
    assert_eq!([first.len(), thin.len()], [57_356, 55_308]);
    assert_eq!([SheetKind::First, SheetKind::Thin].map(SheetKind::longest), [57_356, 55_308]);
    assert_eq!(thin_statement_sheet(&first), Ok(thin.clone()));
    assert_eq!(thin_statement_sheet(&thin), Ok(thin.clone()));
    let more = [&thin[..], &[0]].concat();
    assert_eq!(read_statement(&more), Err(drawn(3, OfStatement, 0)));
    assert_eq!(thin_statement_sheet(&more), Err(drawn(3, OfStatement, 0)));
    let mut out = vec![0; 55_307];
    assert_eq!(thin_statement(&first, &mut out), Err(drawn(16, Neither, 0)));
    assert_eq!(thin_statement(&thin, &mut out), Err(drawn(16, Neither, 0)));
}

/// A bit of the token count, of an end: each makes another sheet.
#[test]
fn wrong_thin_sheets() {
    let good = thin_sheet(&noted(TOKENS), NAMES);
    let with = |at: usize, byte: u8| {
        let mut bytes = good.clone();
        bytes[at] = byte;
        bytes
    };
    let ends = 12 + 5 * noted(TOKENS).len();
    let cases = [
        (with(0, 0), 2, 0),
        (with(1, 0x10), 2, 0),
        (with(3, 0xc0), 2, 0),
        (with(3, 0), 3, 0),
        (with(ends + 1, 0x80), 4, 0),
        (with(ends + 2, 0), 4, 1),
        (with(ends + 4, 3), 4, 3),
    ];
    for (bytes, number, place) in cases {
        assert_eq!(read_statement(&bytes), Err(drawn(number, OfStatement, place)));
        assert_eq!(thin_statement_sheet(&bytes), Err(drawn(number, OfStatement, place)));
    }
    let mut marked = sheet(&noted(TOKENS), NAMES);
    marked[3] = 0x80;
    assert_eq!(read_statement(&marked), Err(drawn(3, OfStatement, 0)));
    assert_eq!(thin_schema_sheet(&good), Err(drawn(6, OfSchema, 0)));
}
