//! Lent memory of every length around the one that is needed, filled with a pattern before the call.
use crate::support::{example, noted, sheet, thin_sheet, BYTE, NUMBER};
use nurbellat::*;

/// Lends `u32` places from none to three more than `needed`: shorter is refused with `number` and keeps all, else
/// `written` stands first and the rest is kept.
fn numbers(
    written: &[u32],
    count: u32,
    number: u32,
    ask: impl Fn(&mut [u32]) -> Result<u32, Refusal>,
) {
    let needed = written.len();
    for places in 0..needed + 4 {
        let mut list = vec![NUMBER; places];
        let answer = ask(&mut list);
        if places < needed {
            assert_eq!(answer, Err(Refusal { number, sheet: Sheet::Neither, place: 0 }));
            assert_eq!(list, vec![NUMBER; places]);
            continue;
        }
        assert_eq!(answer, Ok(count));
        assert_eq!(list[..needed], *written);
        assert_eq!(list[needed..], vec![NUMBER; places - needed]);
    }
}

#[test]
fn list_of_items() {
    let (statement, schema) = example();
    let items = [3004, 6, 37, 4, 2, 1, 0, 3009, 6, 37, 4, 3, 0, 0];
    numbers(&items, 2, 14, |list| check(&statement, &schema, list));
    numbers(&items, 2, 14, |list| margin_list(&statement, &schema, list));
}

#[test]
fn names_and_endpoints() {
    // Types a, b in this order, b with starts a, c and ends c, b; labels c, a; a parameter c.
    let tokens = "100.5 102 50.0 102.4 50.1 112 50.0 113 50.2 112 50.2 113 50.1 \
                  101 50.2 101 50.0 103 50.2 128";
    let schema = sheet(&noted(tokens), &[b"a", b"b", b"c"]);
    numbers(&[0, 2], 2, 16, |out| label_names(&schema, out));
    numbers(&[0, 1], 2, 16, |out| rel_type_names(&schema, out));
    numbers(&[2], 1, 16, |out| parameter_names(&schema, out));
    let pairs = [0, 2, 0, 1, 2, 2, 2, 1];
    numbers(&pairs, 4, 16, |out| relationship_endpoints(&schema, b"b", out));
    numbers(&[], 0, 16, |out| relationship_endpoints(&schema, b"a", out));
    numbers(&[], 0, 16, |out| relationship_endpoints(&schema, b"\xff", out));
}

/// The same with bytes: shorter is refused with 16.
pub fn bytes(written: &[u8], ask: impl Fn(&mut [u8]) -> Result<u32, Refusal>) {
    let needed = written.len();
    for lent in 0..needed + 4 {
        let mut out = vec![BYTE; lent];
        let answer = ask(&mut out);
        if lent < needed {
            assert_eq!(answer, Err(Refusal { number: 16, sheet: Sheet::Neither, place: 0 }));
            assert_eq!(out, vec![BYTE; lent]);
            continue;
        }
        assert_eq!(answer, Ok(needed as u32));
        assert_eq!(out[..needed], *written);
        assert_eq!(out[needed..], vec![BYTE; lent - needed]);
    }
}

#[test]
fn text_of_a_message() {
    let (statement, schema) = example();
    let expected = b"property `green` expects type `Int` but got `String`";
    bytes(expected, |text| message(&statement, &schema, 0, text));
}

#[test]
fn joined_statements() {
    let first = sheet(&noted("90.1 75.1 16 50"), &[b"f"]);
    let second = sheet(&noted("90.1 85 51.7 51.9 50"), &[b"p"]);
    let expected = sheet(&noted("90.2 75.1 16 50 85 51.7 51.9 50.1"), &[b"f", b"p"]);
    bytes(&expected, |out| join_statements(&first, &second, out));
}

#[test]
fn thin_sheets() {
    let statement = sheet(&noted("90.1 75.1 16 50"), &[b"f"]);
    let schema = sheet(&noted("100.1 104.2 50.1"), &[b"", b"f"]);
    let expected = thin_sheet(&noted("90.1 75.1 16 50"), &[b"f"]);
    bytes(&expected, |out| thin_statement(&statement, out));
    bytes(&expected, |out| thin_statement(&expected, out));
    let expected = thin_sheet(&noted("100.1 104.2 50.1"), &[b"", b"f"]);
    bytes(&expected, |out| thin_schema(&schema, out));
    bytes(&expected, |out| thin_schema(&expected, out));
}

#[test]
fn empty_slices() {
    let first = |sheet| Refusal { number: 1, sheet, place: 0 };
    assert_eq!(read_statement(&[]), Err(first(Sheet::Statement)));
    assert_eq!(read_schema(&[]), Err(first(Sheet::Schema)));
    assert_eq!(check(&[], &[], &mut []), Err(first(Sheet::Statement)));
    assert_eq!(margin_list(&[], &[], &mut []), Err(first(Sheet::Statement)));
    assert_eq!(message(&[], &[], 0, &mut []), Err(first(Sheet::Statement)));
    let (statement, schema) = (sheet(&noted("90"), &[]), sheet(&noted("100"), &[]));
    assert_eq!(check(&statement, &[], &mut []), Err(first(Sheet::Schema)));
    assert_eq!(check(&statement, &schema, &mut []), Ok(0));
    assert_eq!(margin_list(&statement, &schema, &mut []), Ok(0));
    assert_eq!(label_names(&schema, &mut []), Ok(0));
    assert_eq!(relationship_endpoints(&schema, &[], &mut []), Ok(0));
    let no_row = Refusal { number: 18, sheet: Sheet::Neither, place: 0 };
    assert_eq!(row_statement(&[], &[], 0, &mut []), Err(no_row));
    assert_eq!(join_statements(&[], &[], &mut []), Err(first(Sheet::Statement)));
    assert_eq!(join_statements(&statement, &[], &mut []), Err(first(Sheet::Second)));
    assert_eq!(thin_statement(&[], &mut []), Err(first(Sheet::Statement)));
    assert_eq!(thin_schema(&[], &mut []), Err(first(Sheet::Schema)));
}

#[test]
fn answers_have_the_archives_layout() {
    assert_eq!((size_of::<raw::Reply>(), align_of::<raw::Reply>()), (16, 4));
    assert_eq!((size_of::<raw::Digested>(), align_of::<raw::Digested>()), (48, 4));
    assert_eq!((size_of::<raw::RowAt>(), align_of::<raw::RowAt>()), (32, 8));
}
