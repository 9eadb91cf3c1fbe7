//! Functions are found in either case of the 26 letters; every other name, and every other byte, is exact.
use crate::support::{node, pattern};
use nurbellat::encode::*;
use nurbellat::{check, diagnostics, margin_list, message_text, relationship_endpoints, Span};

/// A call of a function without arguments.
fn call(name: &str) -> Expr {
    Expr::Call { name: name.into(), args: vec![] }
}

fn function(name: &str, parameters: u32) -> Declaration {
    Declaration::Function { name: name.into(), parameters, variadic: false }
}

fn statement(clauses: Vec<Clause>) -> Vec<u8> {
    encode_statement(&Statement { clauses }).expect("a small statement")
}

/// RETURN of calls.
fn returned(calls: &[&str]) -> Vec<u8> {
    statement(vec![Clause::Return(calls.iter().map(|name| call(name)).collect())])
}

fn schema(declarations: Vec<Declaration>) -> Vec<u8> {
    encode_schema(&Schema { declarations }).expect("a small schema")
}

fn messages(statement: &[u8], schema: &[u8]) -> Vec<String> {
    let found = diagnostics(statement, schema).expect("an accepted pair");
    found.map(|(_, message)| message).collect()
}

const NONE: [&str; 0] = [];

#[test]
fn capitals_find_a_function_and_are_found() {
    let spelt = returned(&["COUNT", "count", "Count"]);
    let mut list = [0; 21];
    for declared in ["count", "COUNT", "cOUNT"] {
        let schema = schema(vec![function(declared, 0)]);
        assert_eq!(messages(&spelt, &schema), NONE);
        assert_eq!(check(&spelt, &schema, &mut list), Ok(0));
        assert_eq!(margin_list(&spelt, &schema, &mut list), Ok(0));
    }
}

#[test]
fn bytes_beside_the_letters_are_exact() {
    for (called, declared) in
        [("[", "{"), ("{", "["), ("@", "`"), ("`", "@"), ("É", "é"), ("é", "É")]
    {
        let expected = format!("unknown function `{called}`");
        assert_eq!(
            messages(&returned(&[called]), &schema(vec![function(declared, 0)])),
            [expected]
        );
    }
}

#[test]
fn the_first_of_the_folded_name_counts_and_the_message_has_the_name_as_called() {
    let schema = schema(vec![function("Sum", 2), function("sum", 0)]);
    let paper = returned(&["sum", "SUM"]);
    let expected = ["sum", "SUM"]
        .map(|name| format!("function `{name}` expects exactly 2 argument(s) but got 0"));
    assert_eq!(messages(&paper, &schema), expected);
    assert_eq!(message_text(&paper, &schema, 1).as_deref(), Ok(&expected[1][..]));
}

#[test]
fn every_other_name_is_exact() {
    let span = Span { start: 1, end: 2 };
    let label = Clause::Match(pattern(vec![node(span, &["COUNT"], None)]));
    let procedure = Clause::Call { span, procedure: "COUNT".into(), args: vec![] };
    let paper = statement(vec![label, procedure, Clause::Return(vec![call("COUNT")])]);
    let name = || "count".to_owned();
    let sides = vec![RelTypeItem::Start(name()), RelTypeItem::End(name())];
    let schema = schema(vec![
        Declaration::Label { name: name(), items: vec![] },
        Declaration::Procedure { name: name(), parameters: 0 },
        Declaration::RelType { name: name(), items: sides },
        function("count", 0),
    ]);
    let expected = ["unknown label `:COUNT`", "unknown procedure `COUNT`"];
    assert_eq!(messages(&paper, &schema), expected);
    assert_eq!(relationship_endpoints(&schema, b"count", &mut [0; 2]), Ok(1));
    assert_eq!(relationship_endpoints(&schema, b"COUNT", &mut [0; 2]), Ok(0));
}
