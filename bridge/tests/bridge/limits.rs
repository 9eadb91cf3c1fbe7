//! Each limit: what just fits is encoded in either kind and read, one more is refused by the encoder.
use crate::support::{node, number_at, pattern, property};
use nurbellat::encode::EncodeError::*;
use nurbellat::encode::*;
use nurbellat::{read_schema, read_statement, thin_schema_sheet, thin_statement_sheet, Span};

fn fits(statement: &Statement) -> Vec<u8> {
    let bytes = encode_statement(statement).expect("it just fits");
    assert_eq!(read_statement(&bytes), Ok(()));
    let thin = encode_thin_statement(statement).expect("so does the thin one");
    assert_eq!(thin_statement_sheet(&bytes), Ok(thin));
    bytes
}

fn refused(statement: &Statement, expected: EncodeError) {
    assert_eq!(encode_statement(statement), Err(expected));
    assert_eq!(encode_thin_statement(statement), Err(expected));
}

fn schema_fits(declarations: Vec<Declaration>) -> Vec<u8> {
    let schema = Schema { declarations };
    let bytes = encode_schema(&schema).expect("it just fits");
    assert_eq!(read_schema(&bytes), Ok(()));
    let thin = encode_thin_schema(&schema).expect("so does the thin one");
    assert_eq!(thin_schema_sheet(&bytes), Ok(thin));
    bytes
}

fn schema_refused(declarations: Vec<Declaration>, expected: EncodeError) {
    let schema = Schema { declarations };
    assert_eq!(encode_schema(&schema), Err(expected));
    assert_eq!(encode_thin_schema(&schema), Err(expected));
}

fn one(clause: Clause) -> Statement {
    Statement { clauses: vec![clause] }
}

/// SET n:A:B.. with these labels.
fn set_labels(labels: Vec<String>) -> Statement {
    one(Clause::Set(vec![SetItem::Labels(labels)]))
}

fn numbered(count: usize) -> Vec<String> {
    (0..count).map(|i| i.to_string()).collect()
}

fn label(name: String) -> Declaration {
    Declaration::Label { name, items: vec![] }
}

fn function(name: String) -> Declaration {
    Declaration::Function { name, parameters: 0, variadic: false }
}

#[test]
fn tokens() {
    let returns = |exprs| one(Clause::Return(vec![Expr::Null; exprs]));
    assert_eq!(number_at(&fits(&returns(4_094)), 0), 4_096);
    refused(&returns(4_095), TooManyTokens);
    refused(&returns(4_096), TooManyTokens);
    refused(&returns(100_000), TooManyTokens);
    let clauses = |clauses| Statement { clauses: vec![Clause::Return(vec![]); clauses] };
    assert_eq!(number_at(&fits(&clauses(4_095)), 0), 4_096);
    refused(&clauses(4_096), TooManyTokens);
    // Statement, WHERE, the map, and two for each pair; a list around it makes it even.
    let map = Expr::Map(vec![("k".into(), Expr::Null); 2_046]);
    let around = |map| one(Clause::Where(Expr::List(vec![map])));
    assert_eq!(number_at(&fits(&around(map)), 0), 4_096);
    refused(&around(Expr::Map(vec![("k".into(), Expr::Null); 2_047])), TooManyTokens);
}

#[test]
fn tokens_of_a_schema() {
    let functions = |count| vec![function("f".into()); count];
    assert_eq!(number_at(&schema_fits(functions(2_047)), 0), 4_095);
    schema_refused(functions(2_048), TooManyTokens);
    let apart = Declaration::Apart("A".into(), "B".into());
    let last = |count| [functions(count), vec![apart.clone()]].concat();
    assert_eq!(number_at(&schema_fits(last(2_046)), 0), 4_096);
}

#[test]
fn names() {
    assert_eq!(number_at(&fits(&set_labels(numbered(1_024))), 4), 1_024);
    refused(&set_labels(numbered(1_025)), TooManyNames);
    // Equal texts are one name.
    let twice = [numbered(1_024), numbered(1_024)].concat();
    assert_eq!(number_at(&fits(&set_labels(twice)), 4), 1_024);
    let labels = |count| numbered(count).into_iter().map(label).collect();
    assert_eq!(number_at(&schema_fits(labels(1_024)), 4), 1_024);
    schema_refused(labels(1_025), TooManyNames);
}

#[test]
fn text() {
    let long = |bytes| "n".repeat(bytes);
    assert_eq!(number_at(&fits(&set_labels(vec![long(32_768)])), 8), 32_768);
    refused(&set_labels(vec![long(32_769)]), TooMuchText);
    let with_two_bytes = |bytes| set_labels(vec!["é".into(), long(bytes)]);
    assert_eq!(number_at(&fits(&with_two_bytes(32_766)), 8), 32_768);
    refused(&with_two_bytes(32_767), TooMuchText);
    // Equal texts and an empty one take no room.
    let again = vec![long(32_768), String::new(), long(32_768)];
    assert_eq!(number_at(&fits(&set_labels(again)), 8), 32_768);
    assert_eq!(number_at(&schema_fits(vec![label(long(32_768))]), 8), 32_768);
    schema_refused(vec![label(long(32_769))], TooMuchText);
}

/// A WHERE whose innermost expression has that depth.
fn deep(depth: usize, innermost: Expr) -> Statement {
    let wrap = |inner, _| Expr::UnaryOp(Box::new(inner));
    one(Clause::Where((2..depth).fold(innermost, wrap)))
}

#[test]
fn depth() {
    fits(&deep(64, Expr::Null));
    refused(&deep(65, Expr::Null), TooDeep);
    refused(&deep(5_000, Expr::Null), TooDeep);
    // Names and numbers are tokens too.
    let call = || Expr::Call { name: "f".into(), args: vec![] };
    fits(&deep(63, call()));
    refused(&deep(64, call()), TooDeep);
    let predicate = || Expr::PatternPredicate(pattern(vec![node(Span::default(), &[], None)]));
    fits(&deep(60, predicate()));
    refused(&deep(61, predicate()), TooDeep);
    fits(&deep(64, Expr::List(vec![])));
    refused(&deep(64, Expr::List(vec![Expr::Null])), TooDeep);
}

#[test]
fn spans() {
    let element = |span| one(Clause::Match(pattern(vec![node(span, &[], None)])));
    let call = |span| one(Clause::Call { span, procedure: "p".into(), args: vec![] });
    for start in [0, 7, u32::MAX] {
        fits(&element(Span { start, end: start }));
        fits(&call(Span { start, end: start }));
    }
    for (start, end) in [(1, 0), (7, 6), (u32::MAX, 0)] {
        let span = Span { start, end };
        refused(&element(span), EndBelowStart(span));
        refused(&call(span), EndBelowStart(span));
    }
}

#[test]
fn lists_of_a_type() {
    let typed = |lists| {
        let ty = PropertyType { base: BaseType::Int, lists };
        vec![Declaration::Parameter { name: "x".into(), ty, default: None }]
    };
    schema_fits(typed(63));
    schema_refused(typed(64), TooManyLists(64));
    schema_refused(typed(u32::MAX), TooManyLists(u32::MAX));
    let mut of_property = property("k", BaseType::Int, false);
    of_property.ty.lists = 64;
    let items = vec![LabelItem::Property(of_property)];
    schema_refused(vec![Declaration::Label { name: "A".into(), items }], TooManyLists(64));
}

#[test]
fn parameters() {
    let function = |parameters, variadic| {
        vec![Declaration::Function { name: "f".into(), parameters, variadic }]
    };
    for variadic in [false, true] {
        schema_fits(function(2_147_483_647, variadic));
        schema_refused(function(2_147_483_648, variadic), TooManyParameters(2_147_483_648));
    }
    schema_fits(vec![Declaration::Procedure { name: "p".into(), parameters: u32::MAX }]);
}

#[test]
fn words_of_an_error() {
    let span = Span { start: 7, end: 6 };
    assert_eq!(EndBelowStart(span).to_string(), "a span ends at 6, before its start 7");
    assert_eq!(TooManyTokens.to_string(), "a sheet has at most 4096 tokens");
    assert_eq!(TooManyLists(64).to_string(), "a type of 64 lists: 63 at most");
}
