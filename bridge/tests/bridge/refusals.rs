//! A refusal of each number that can be drawn, from every operation that draws it.
use crate::support::{example, noted, sheet, thin_sheet, Make, BYTE, NUMBER};
use nurbellat::Sheet::{Neither, Schema, Statement};
use nurbellat::*;
use std::collections::HashSet;

fn drawn(number: u32, sheet: Sheet, place: u32) -> Refusal {
    Refusal { number, sheet, place }
}

/// Either kind of sheet, and how many bytes a name's end has there.
const KINDS: [(Make, usize); 2] = [(sheet, 4), (thin_sheet, 2)];

/// Where the ends stand in a sheet of one token.
const ENDS: usize = 12 + 5;

/// Sheets of either kind that draw 1 to 5 with their numbers and places; `kind` is that of token 0.
fn frames(kind: u8) -> Vec<(u32, u32, Vec<u8>)> {
    let of = |(make, width): (Make, usize)| {
        let good = make(&[(kind, 0)], &[b"a", b"b"]);
        let mut no_tokens = good.clone();
        no_tokens[0] = 0;
        let mut other_kind = good.clone();
        other_kind[3] ^= 0x80;
        let mut falling = good.clone();
        falling[ENDS] = 2;
        falling[ENDS + width] = 1;
        let mut short = good.clone();
        short[ENDS + width] = 1;
        vec![
            (1, 0, good[..11].to_vec()),
            (2, 0, no_tokens),
            (3, 0, [&good[..], &[0]].concat()),
            (3, 0, other_kind),
            (4, 1, falling),
            (4, 2, short),
            (5, 1, make(&[(kind, 0)], &[b"a", b"\xc3"])),
        ]
    };
    KINDS.into_iter().flat_map(of).collect()
}

/// Sheets of either kind of these tokens with two names, "a" and "b".
fn forms(noted_tokens: &[(u32, u32, &str)]) -> Vec<(u32, u32, Vec<u8>)> {
    let made = |(number, place, tokens): &(u32, u32, &str)| {
        KINDS.map(|(make, _)| (*number, *place, make(&noted(tokens), &[b"a", b"b"])))
    };
    noted_tokens.iter().flat_map(made).collect()
}

fn refused_statements() -> Vec<(u32, u32, Vec<u8>)> {
    let deep = format!("90.1 73 {}3", "19 ".repeat(63));
    let tokens = [
        (6, 0, "100"),
        (6, 3, "90.1 73 10 50.2 6"),
        (6, 6, "90.1 70 60.1 61.1 62 51.7 51.6"),
        (7, 65, &deep),
        (8, 2, "90.1 75.1"),
        (9, 1, "90 3"),
    ];
    [frames(90), forms(&tokens)].concat()
}

fn refused_schemas() -> Vec<(u32, u32, Vec<u8>)> {
    let tokens = [
        (6, 0, "90"),
        (6, 3, "100.1 103 50 120.64"),
        (6, 3, "100.1 101.1 50 112 50.1"),
        (8, 2, "100.1 101"),
        (9, 1, "100 3"),
        (10, 3, "100.2 101 50 101 50"),
        (11, 3, "100.2 102 50.1 102 50.1"),
        (12, 4, "100.2 103 50 121 103 50 122"),
        (13, 1, "100.1 106 50 50"),
    ];
    [frames(100), forms(&tokens)].concat()
}

#[test]
fn a_statement_from_each_operation() {
    let (good, schema) = example();
    let mut numbers = HashSet::new();
    for (number, place, statement) in refused_statements() {
        let expected = drawn(number, Statement, place);
        assert_eq!(read_statement(&statement), Err(expected));
        checked(&statement, &schema, expected);
        // The statement comes before the schema.
        checked(&statement, &[], expected);
        joined(&statement, &good, expected);
        converted(thin_statement, thin_statement_sheet, &statement, expected);
        numbers.insert(number);
    }
    assert_eq!(numbers, (1..=9).collect());
}

#[test]
fn a_schema_from_each_operation() {
    let (statement, _) = example();
    let mut numbers = HashSet::new();
    for (number, place, schema) in refused_schemas() {
        let expected = drawn(number, Schema, place);
        assert_eq!(read_schema(&schema), Err(expected));
        checked(&statement, &schema, expected);
        stored(&schema, expected);
        converted(thin_schema, thin_schema_sheet, &schema, expected);
        numbers.insert(number);
    }
    // A schema's depth never passes 3.
    assert_eq!(numbers, (1..=13).filter(|number| *number != 7).collect());
}

/// The operations over both sheets refuse so, and lent memory is as it came.
fn checked(statement: &[u8], schema: &[u8], expected: Refusal) {
    let mut list = [NUMBER; 30];
    assert_eq!(check(statement, schema, &mut list), Err(expected));
    assert_eq!(margin_list(statement, schema, &mut list), Err(expected));
    assert_eq!(list, [NUMBER; 30]);
    let mut text = [BYTE; 300];
    assert_eq!(message(statement, schema, 0, &mut text), Err(expected));
    assert_eq!(text, [BYTE; 300]);
    assert_eq!(diagnostics(statement, schema).map(|found| found.len()), Err(expected));
    assert_eq!(margin(statement, schema).map(|found| found.len()), Err(expected));
    assert_eq!(message_text(statement, schema, 0), Err(expected));
}

/// Joining refuses so on either side of another statement, and lent memory is as it came.
fn joined(statement: &[u8], other: &[u8], expected: Refusal) {
    let mut out = [BYTE; 300];
    assert_eq!(join_statements(statement, other, &mut out), Err(expected));
    assert_eq!(joined_sheet(statement, other), Err(expected));
    // The first comes before the second.
    assert_eq!(join_statements(statement, &[], &mut out), Err(expected));
    let of_second = Refusal { sheet: Sheet::Second, ..expected };
    assert_eq!(join_statements(other, statement, &mut out), Err(of_second));
    assert_eq!(joined_sheet(other, statement), Err(of_second));
    assert_eq!(out, [BYTE; 300]);
}

/// A converter refuses so before it looks at the buffer, and lent memory is as it came.
fn converted(
    ask: impl Fn(&[u8], &mut [u8]) -> Result<u32, Refusal>,
    own: impl Fn(&[u8]) -> Result<Vec<u8>, Refusal>,
    sheet: &[u8],
    expected: Refusal,
) {
    let mut out = [BYTE; 300];
    assert_eq!(ask(sheet, &mut out), Err(expected));
    assert_eq!(ask(sheet, &mut []), Err(expected));
    assert_eq!(out, [BYTE; 300]);
    assert_eq!(own(sheet), Err(expected));
}

/// The operations over a schema refuse so, and lent memory is as it came.
fn stored(schema: &[u8], expected: Refusal) {
    let mut out = [NUMBER; 30];
    assert_eq!(label_names(schema, &mut out), Err(expected));
    assert_eq!(rel_type_names(schema, &mut out), Err(expected));
    assert_eq!(parameter_names(schema, &mut out), Err(expected));
    assert_eq!(relationship_endpoints(schema, b"a", &mut out), Err(expected));
    assert_eq!(out, [NUMBER; 30]);
    assert_eq!(schema_digest(schema), Err(expected));
    assert_eq!(raw::schema_digest(schema).bytes, [0; 32]);
    assert_eq!(labels(schema), Err(expected));
    assert_eq!(rel_types(schema), Err(expected));
    assert_eq!(parameters(schema), Err(expected));
    assert_eq!(endpoints(schema, "a"), Err(expected));
}

#[test]
fn lists_and_texts_too_short_and_no_such_item() {
    let (statement, schema) = example();
    let mut list = [NUMBER; 13];
    assert_eq!(check(&statement, &schema, &mut list), Err(drawn(14, Neither, 0)));
    assert_eq!(margin_list(&statement, &schema, &mut list), Err(drawn(14, Neither, 0)));
    assert_eq!(list, [NUMBER; 13]);
    let mut text = [BYTE; 20];
    assert_eq!(message(&statement, &schema, 2, &mut text), Err(drawn(15, Neither, 0)));
    assert_eq!(message(&statement, &schema, u32::MAX, &mut text), Err(drawn(15, Neither, 0)));
    assert_eq!(message(&statement, &schema, 1, &mut text), Err(drawn(16, Neither, 0)));
    assert_eq!(text, [BYTE; 20]);
    assert_eq!(label_names(&schema, &mut []), Err(drawn(16, Neither, 0)));
}

#[test]
fn words_of_a_refusal() {
    let said = |number, sheet, place| drawn(number, sheet, place).to_string();
    assert_eq!(said(1, Statement, 0), "refused 1, statement sheet: it has fewer than 12 bytes");
    assert_eq!(said(5, Schema, 3), "refused 5, schema sheet, name 3: a name is not UTF-8");
    let again = "refused 10, schema sheet, token 7: a label is declared again";
    assert_eq!(said(10, Schema, 7), again);
    let room = "refused 14: there are more items than the list has room for";
    assert_eq!(said(14, Neither, 0), room);
    let meanings: HashSet<&str> =
        (0..=20).map(|number| drawn(number, Neither, 0).meaning()).collect();
    assert_eq!(meanings.len(), 21);
    assert_eq!(said(17, Neither, 0), "refused 17: the text breaks RFC 4180");
    assert_eq!([Neither, Statement, Schema, Sheet::Second].map(Sheet::number), [0, 1, 2, 2]);
}
