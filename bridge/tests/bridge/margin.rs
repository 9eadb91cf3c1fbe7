//! A statement of two clauses whose breaches a reader meets in another order than that of the check.
use crate::support::{example_schema, node, noted, pattern, sheet, texts, NUMBER};
use nurbellat::encode::*;
use nurbellat::*;

const TEXT: &str = r#"MERGE (:Phase {stage: 1})-[:NEXT]->(:Phase {stage: "2"}) RETURN now()"#;

/// Where a part of `TEXT` stands.
fn span(part: &str) -> Span {
    let start = TEXT.find(part).expect("a part of the text") as u32;
    Span { start, end: start + part.len() as u32 }
}

/// `TEXT` as a sheet, and the example's schema with the relationship type NEXT.
fn sheets() -> (Vec<u8>, Vec<u8>) {
    let stage = |value| Some(Expr::Map(vec![("stage".into(), value)]));
    let first = node(span("(:Phase {stage: 1})"), &["Phase"], stage(Expr::Int));
    let kind = ElementKind::Rel;
    let next = Element { kind, span: span("-[:NEXT]->"), names: texts(&["NEXT"]), props: None };
    let second = node(span("(:Phase {stage: \"2\"})"), &["Phase"], stage(Expr::String));
    let now = Expr::Call { name: "now".into(), args: vec![] };
    let merge = Clause::Merge(pattern(vec![first, next, second]));
    let statement = Statement { clauses: vec![merge, Clause::Return(vec![now])] };
    let mut schema = example_schema();
    schema.declarations.push(Declaration::RelType { name: "NEXT".into(), items: vec![] });
    (encode_statement(&statement).expect("small"), encode_schema(&schema).expect("small"))
}

fn lines(found: Diagnostics) -> Vec<String> {
    found.map(|(item, text)| format!("{item} in clause {}: {text}", item.clause)).collect()
}

const WRONG_TYPE: &str =
    "E3004 35 56 15 in clause 0: property `stage` expects type `Int` but got `String`";
const FIRST_KEY: &str =
    "E3009 6 25 4 in clause 0: MERGE key {stage} on label(s) :Phase is not backed by a declared uniqueness constraint";
const SECOND_KEY: &str =
    "E3009 35 56 15 in clause 0: MERGE key {stage} on label(s) :Phase is not backed by a declared uniqueness constraint";
const NOW: &str = "E3006 0 0 23 in clause 1: unknown function `now`";

#[test]
fn the_check_puts_merge_keys_last_in_their_clause() {
    let (statement, schema) = sheets();
    let found = diagnostics(&statement, &schema).expect("an accepted pair");
    assert_eq!(lines(found), [WRONG_TYPE, FIRST_KEY, SECOND_KEY, NOW]);
}

#[test]
fn the_margin_goes_from_left_to_right() {
    let (statement, schema) = sheets();
    let found = margin(&statement, &schema).expect("an accepted pair");
    assert_eq!(found.len(), 4);
    assert_eq!(found.items()[1].span, span("(:Phase {stage: 1})"));
    assert_eq!(lines(found), [NOW, FIRST_KEY, WRONG_TYPE, SECOND_KEY]);
}

#[test]
fn a_message_is_asked_for_by_its_number_in_the_checks_list() {
    let (statement, schema) = sheets();
    let text = message_text(&statement, &schema, 3).expect("the fourth item");
    assert_eq!(text, "unknown function `now`");
}

/// What the check refuses the margin list refuses, and keeps the list as it came.
#[test]
fn refusals_are_the_checks() {
    let (statement, schema) = sheets();
    let cut = &statement[..statement.len() - 1];
    let again = sheet(&noted("100.2 101 50 101 50"), &[b"a"]);
    let long = [NUMBER; 30];
    let pairs = [(cut, &schema, 30), (&statement, &again, 30), (&statement, &schema, 27)];
    for ((statement, schema, places), number) in pairs.into_iter().zip([3, 10, 14]) {
        let mut list = long;
        let refusal = margin_list(statement, schema, &mut list[..places]).expect_err("refused");
        assert_eq!(refusal.number, number);
        assert_eq!(check(statement, schema, &mut list[..places]), Err(refusal));
        assert_eq!(list, long);
    }
    assert_eq!(margin_list(&statement, &schema, &mut [NUMBER; 28]), Ok(4));
}
