//! Document 01's worked example, from Rust values to the lines that the program prints.
use crate::support::{example, noted, number_at, sheet};
use nurbellat::{check, diagnostics, message, message_text, Diagnostic, Refusal, Span};

#[test]
fn sheets_have_document_01s_sizes() {
    let (statement, schema) = example();
    assert_eq!((statement.len(), schema.len()), (104, 107));
    assert_eq!([number_at(&statement, 0), number_at(&statement, 4)], [13, 3]);
    assert_eq!([number_at(&schema, 0), number_at(&schema, 4)], [12, 4]);
}

#[test]
fn sheets_have_document_01s_bytes() {
    let (statement, schema) = example();
    let tokens = noted("90.1 72 60.1 61.1 62.3 51.6 51.37 50.0 14.2 50.1 3 50.2 5");
    assert_eq!(statement, sheet(&tokens, &[b"Phase", b"stage", b"green"]));
    let tokens = noted("100.1 101.3 50.0 110 50.1 121 110 50.2 121 111.2 50.3 50.1");
    assert_eq!(schema, sheet(&tokens, &[b"Phase", b"stage", b"green", b"site"]));
}

#[test]
fn printed_lines() {
    let (statement, schema) = example();
    let found = diagnostics(&statement, &schema).expect("an accepted pair");
    let count = found.len();
    let mut lines: Vec<String> = found.map(|(item, text)| format!("{item} {text}")).collect();
    lines.push(format!("{count} listed"));
    let expected = [
        "E3004 6 37 4 property `green` expects type `Int` but got `String`",
        "E3009 6 37 4 MERGE key {green, stage} on label(s) :Phase is not backed by a declared uniqueness constraint",
        "2 listed",
    ];
    assert_eq!(lines, expected);
}

#[test]
fn items_in_numbers_and_as_values() {
    let (statement, schema) = example();
    let mut list = [0; 14];
    assert_eq!(check(&statement, &schema, &mut list), Ok(2));
    assert_eq!(list, [3004, 6, 37, 4, 2, 1, 0, 3009, 6, 37, 4, 3, 0, 0]);
    let found = diagnostics(&statement, &schema).expect("an accepted pair");
    let span = Span { start: 6, end: 37 };
    let wrong_type = Diagnostic { code: 3004, span, owner: 4, stage: 2, ordinal: 1, clause: 0 };
    let unbacked = Diagnostic { code: 3009, span, owner: 4, stage: 3, ordinal: 0, clause: 0 };
    assert_eq!(found.items(), [wrong_type, unbacked]);
    assert_eq!(Diagnostic::from_numbers([3004, 6, 37, 4, 2, 1, 0]), wrong_type);
}

#[test]
fn one_message() {
    let (statement, schema) = example();
    let expected = "property `green` expects type `Int` but got `String`";
    let mut text = [0; 100];
    let length = message(&statement, &schema, 0, &mut text).expect("room enough") as usize;
    assert_eq!(&text[..length], expected.as_bytes());
    assert_eq!(message_text(&statement, &schema, 0).as_deref(), Ok(expected));
    let past = message_text(&statement, &schema, 2);
    assert!(matches!(past, Err(Refusal { number: 15, .. })));
}
