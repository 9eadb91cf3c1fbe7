//! Rows of comma-separated text: their sheets, every refusal, and the iterator.
use crate::lent::bytes;
use crate::support::{example_schema, noted, sheet, BYTE};
use nurbellat::encode::encode_schema;
use nurbellat::Sheet::{Neither, Statement};
use nurbellat::*;

const PLAN: &[u8] = b"stage,green\r\n1,\"7\"\r\n,\r\n2.5,true\r\nshort\r\n";

fn drawn(number: u32, sheet: Sheet, place: u32) -> Refusal {
    Refusal { number, sheet, place }
}

/// The sheet of a row of `PLAN` from `start` to `stop`, with cells of these kinds.
fn expected(start: u32, stop: u32, cells: [u8; 2]) -> Vec<u8> {
    let [first, second] = cells;
    let tokens =
        format!("90.1 72 60.1 61.1 62.3 51.{start} 51.{stop} 50.0 14.2 50.1 {first} 50.2 {second}");
    sheet(&noted(&tokens), &[b"Phase", b"stage", b"green"])
}

#[test]
fn sheets_of_rows() {
    assert_eq!(row_sheet(PLAN, b"Phase", 0), Ok(expected(13, 18, [3, 5])));
    assert_eq!(row_sheet(PLAN, b"Phase", 1), Ok(expected(20, 21, [1, 1])));
    assert_eq!(row_sheet(PLAN, b"Phase", 2), Ok(expected(23, 31, [4, 2])));
}

#[test]
fn a_row_is_checked_like_any_statement() {
    let schema = encode_schema(&example_schema()).expect("a small schema");
    let row = row_sheet(PLAN, b"Phase", 0).expect("a row");
    assert_eq!(read_statement(&row), Ok(()));
    let found = diagnostics(&row, &schema).expect("an accepted pair");
    let lines: Vec<String> = found.map(|(item, text)| format!("{item} {text}")).collect();
    let expected = [
        "E3004 13 18 4 property `green` expects type `Int` but got `String`",
        "E3009 13 18 4 MERGE key {green, stage} on label(s) :Phase is not backed by a declared uniqueness constraint",
    ];
    assert_eq!(lines, expected);
}

#[test]
fn buffers_of_every_length() {
    bytes(&expected(13, 18, [3, 5]), |out| row_statement(PLAN, b"Phase", 0, out));
}

/// A text, a label, a row, and the refusal that they draw.
type Case = (Vec<u8>, &'static [u8], u32, Refusal);

/// As many empty headers and cells, the last header as given.
fn wide(columns: usize, last: &[u8]) -> Vec<u8> {
    let commas = vec![b','; columns - 1];
    [&commas[..], last, b"\r\n", &commas, b"\r\n"].concat()
}

fn refused() -> Vec<Case> {
    vec![
        (b"a\r\n1\n".to_vec(), b"\xff", 9, drawn(17, Neither, 0)),
        (b"a\r\n1\r\n\"".to_vec(), b"A", 0, drawn(17, Neither, 0)),
        (b"".to_vec(), b"\xff", 0, drawn(18, Neither, 0)),
        (PLAN.to_vec(), b"A", 3, drawn(18, Neither, 0)),
        (PLAN.to_vec(), b"A", 4, drawn(18, Neither, 0)),
        (PLAN.to_vec(), b"A", u32::MAX, drawn(18, Neither, 0)),
        (PLAN.to_vec(), b"\xc3", 0, drawn(5, Statement, 0)),
        (wide(2_000, b"\xff"), b"A", 0, drawn(5, Statement, 2_000)),
        (b"\"\xc3\"\"\xa9\"\r\n1".to_vec(), b"A", 0, drawn(5, Statement, 1)),
        (wide(1_024, b""), b"A", 0, drawn(19, Neither, 0)),
        (wide(1, &[b'n'; 32_768]), b"A", 0, drawn(19, Neither, 0)),
    ]
}

#[test]
fn refusals_of_a_row() {
    for (text, label, row, expected) in refused() {
        let mut out = [BYTE; 100];
        assert_eq!(row_statement(&text, label, row, &mut out), Err(expected));
        assert_eq!(out, [BYTE; 100]);
        assert_eq!(row_sheet(&text, label, row), Err(expected));
    }
}

#[test]
fn the_longest_sheet() {
    let text = wide(1_023, &[b'n'; 32_767]);
    assert_eq!(row_sheet(&text, b"A", 0).map(|sheet| sheet.len()), Ok(47_151));
}

#[test]
fn rows_of_a_text() {
    let found: Result<Vec<&[u8]>, Broken> = rows(PLAN).collect();
    let expected: [&[u8]; 5] = [b"stage,green", b"1,\"7\"", b",", b"2.5,true", b"short"];
    assert_eq!(found, Ok(expected.to_vec()));
    assert_eq!(rows(b"").next(), None);
    let broken: Vec<Result<&[u8], Broken>> = rows(b"a\r\n\"b").collect();
    assert_eq!(broken, [Ok(&b"a"[..]), Err(Broken { at: 5 })]);
    assert_eq!(Broken { at: 5 }.to_string(), "the text breaks RFC 4180 at byte 5");
}

#[test]
fn one_row() {
    assert_eq!(next_row(PLAN, 0), NextRow::Row { bytes: 0..11, next: 13 });
    assert_eq!(next_row(PLAN, 11), NextRow::Row { bytes: 11..11, next: 13 });
    assert_eq!(next_row(PLAN, PLAN.len()), NextRow::End);
    assert_eq!(next_row(PLAN, usize::MAX), NextRow::End);
    assert_eq!(next_row(b"a\rb", 0), NextRow::Broken { at: 2 });
    assert_eq!(next_row(&[], 0), NextRow::End);
}
