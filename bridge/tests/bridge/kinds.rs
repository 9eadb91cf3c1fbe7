//! Every kind of document 01 as the encoder writes it. Children that may be confused differ.
use crate::support::{node, noted, pattern, property, sheet, texts, tokens};
use nurbellat::encode::*;
use nurbellat::{read_schema, read_statement, Span};

fn clause(clause: Clause, expected: &str) {
    let bytes = encode_statement(&Statement { clauses: vec![clause] }).expect("a small clause");
    assert_eq!(read_statement(&bytes), Ok(()));
    assert_eq!(tokens(&bytes), noted(&format!("90.1 {expected}")));
}

/// An expression under a WHERE.
fn expr(expr: Expr, expected: &str) {
    let statement = Statement { clauses: vec![Clause::Where(expr)] };
    let bytes = encode_statement(&statement).expect("a small expression");
    assert_eq!(read_statement(&bytes), Ok(()));
    assert_eq!(tokens(&bytes), noted(&format!("90.1 73 {expected}")));
}

fn declaration(declaration: Declaration, expected: &str) {
    let schema = Schema { declarations: vec![declaration] };
    let bytes = encode_schema(&schema).expect("a small declaration");
    assert_eq!(read_schema(&bytes), Ok(()));
    assert_eq!(tokens(&bytes), noted(&format!("100.1 {expected}")));
}

fn boxed(expr: Expr) -> Box<Expr> {
    Box::new(expr)
}

const SPAN: Span = Span { start: 8, end: 9 };

#[test]
fn patterns_of_clauses() {
    clause(Clause::Match(Pattern::default()), "70 60");
    clause(Clause::Create(Pattern { parts: vec![Part::default()] }), "71 60.1 61");
    let rel = Element {
        kind: ElementKind::Rel,
        span: SPAN,
        names: texts(&["R", "S", "R"]),
        props: Some(Expr::Param),
    };
    let both = pattern(vec![node(SPAN, &[], None), rel]);
    clause(Clause::Merge(both), "72 60.1 61.2 62 51.8 51.9 63.7 51.8 51.9 50 50.1 50 7");
}

#[test]
fn clauses_of_expressions() {
    clause(Clause::Where(Expr::Null), "73 1");
    let projections = vec![Expr::Null, Expr::Bool];
    clause(
        Clause::With { projections: projections.clone(), filter: Some(Expr::Int) },
        "74.5 1 2 3",
    );
    clause(Clause::With { projections, filter: None }, "74.4 1 2");
    clause(Clause::Return(vec![Expr::Float, Expr::String]), "75.2 4 5");
    clause(Clause::Unwind(Expr::Var), "76 6");
    clause(Clause::Delete(vec![Expr::Var]), "79.1 6");
    let args = vec![Expr::Int, Expr::Float];
    clause(Clause::Call { span: SPAN, procedure: "p".into(), args }, "85.2 51.8 51.9 50 3 4");
}

#[test]
fn items_of_set_and_remove() {
    let items = vec![
        SetItem::Property { target: Expr::Var, value: Expr::Int },
        SetItem::AssignMap(Expr::Param),
        SetItem::Labels(texts(&["A", "B"])),
    ];
    clause(Clause::Set(items), "77.3 80 6 3 81 7 82.2 50 50.1");
    let items = vec![RemoveItem::Property(Expr::Var), RemoveItem::Labels(texts(&["A"]))];
    clause(Clause::Remove(items), "78.2 83 6 84.1 50");
}

#[test]
fn leaves() {
    expr(Expr::Null, "1");
    expr(Expr::Bool, "2");
    expr(Expr::Int, "3");
    expr(Expr::Float, "4");
    expr(Expr::String, "5");
    expr(Expr::Var, "6");
    expr(Expr::Param, "7");
    expr(Expr::Unresolved, "8");
    expr(Expr::ExistsSubqueryDeferred, "9");
}

#[test]
fn expressions_of_fixed_children() {
    let (one, other) = (|| boxed(Expr::Null), || boxed(Expr::Bool));
    expr(Expr::Prop { target: one(), prop: "k".into() }, "10 50 1");
    expr(Expr::Index { target: one(), index: other() }, "11 1 2");
    expr(Expr::BinOp { lhs: one(), rhs: other() }, "17 1 2");
    expr(Expr::UnaryOp(one()), "18 1");
    expr(Expr::IsNull(one()), "19 1");
    expr(Expr::InList { operand: one(), list: other() }, "21 1 2");
    expr(Expr::PatternPredicate(Pattern::default()), "22 60");
}

#[test]
fn expressions_of_counted_children() {
    expr(Expr::List(vec![Expr::Null, Expr::Bool]), "13.2 1 2");
    let pairs = vec![("k".into(), Expr::Null), ("k".into(), Expr::Bool)];
    expr(Expr::Map(pairs), "14.2 50 1 50 2");
    let args = vec![Expr::Null, Expr::Bool];
    expr(Expr::Call { name: "f".into(), args }, "16.2 50 1 2");
    let items = vec![
        MapItem::Computed { key: "a".into(), value: Expr::Null },
        MapItem::Aliased { key: "b".into(), value: Expr::Bool },
        MapItem::PropCopy("a".into()),
        MapItem::VarShorthand("c".into()),
    ];
    expr(
        Expr::MapProjection { base: boxed(Expr::Var), items },
        "26.4 6 27 50 1 28 50.1 2 29 50 30 50.2",
    );
}

#[test]
fn slices_and_cases() {
    let slice = |start: Option<Expr>, end: Option<Expr>| Expr::Slice {
        target: boxed(Expr::Null),
        start: start.map(boxed),
        end: end.map(boxed),
    };
    expr(slice(None, None), "12 1");
    expr(slice(Some(Expr::Bool), None), "12.1 1 2");
    expr(slice(None, Some(Expr::Int)), "12.2 1 3");
    expr(slice(Some(Expr::Bool), Some(Expr::Int)), "12.3 1 2 3");
    let case = |scrutinee: Option<Expr>, otherwise: Option<Expr>| Expr::Case {
        scrutinee: scrutinee.map(boxed),
        arms: vec![(Expr::Int, Expr::Float)],
        otherwise: otherwise.map(boxed),
    };
    expr(case(None, None), "20.4 3 4");
    expr(case(Some(Expr::Null), None), "20.5 1 3 4");
    expr(case(None, Some(Expr::Bool)), "20.6 3 4 2");
    expr(case(Some(Expr::Null), Some(Expr::Bool)), "20.7 1 3 4 2");
}

#[test]
fn comprehensions_and_predicates() {
    let filter = || Some(boxed(Expr::Bool));
    let of_pattern = |filter| Expr::PatternComprehension {
        pattern: Pattern::default(),
        filter,
        map_expr: boxed(Expr::Int),
    };
    expr(of_pattern(None), "23 60 3");
    expr(of_pattern(filter()), "23.1 60 2 3");
    let of_list = |filter| Expr::ListComprehension {
        iterable: boxed(Expr::Null),
        filter,
        map_expr: boxed(Expr::Int),
    };
    expr(of_list(None), "24 1 3");
    expr(of_list(filter()), "24.1 1 2 3");
    let predicate = |predicate| Expr::ListPredicate { iterable: boxed(Expr::Null), predicate };
    expr(predicate(None), "25 1");
    expr(predicate(filter()), "25.1 1 2");
}

#[test]
fn labels_and_types() {
    let required = LabelItem::Property(property("k", BaseType::Float, true));
    let items = vec![required, LabelItem::Tuple(texts(&["k", "l"]))];
    declaration(
        Declaration::Label { name: "A".into(), items },
        "101.2 50 110.1 50.1 122 111.2 50.1 50.2",
    );
    let items = vec![
        RelTypeItem::Start("A".into()),
        RelTypeItem::Tuple(vec![]),
        RelTypeItem::End("B".into()),
        RelTypeItem::Property(property("k", BaseType::Bool, false)),
    ];
    declaration(
        Declaration::RelType { name: "R".into(), items },
        "102.4 50 112 50.1 111 113 50.2 110 50.3 123",
    );
}

#[test]
fn other_declarations() {
    let ty = PropertyType { base: BaseType::Any, lists: 2 };
    let parameter = |default| Declaration::Parameter { name: "x".into(), ty, default };
    declaration(parameter(None), "103 50 128.2");
    declaration(parameter(Some("d".into())), "103.1 50 128.2 50.1");
    let function = |variadic| Declaration::Function { name: "f".into(), parameters: 3, variadic };
    declaration(function(false), "104.6 50");
    declaration(function(true), "104.7 50");
    declaration(Declaration::Procedure { name: "p".into(), parameters: 3 }, "105.3 50");
    declaration(Declaration::Apart("A".into(), "B".into()), "106 50 50.1");
}

#[test]
fn base_types() {
    use BaseType::*;
    let bases = [String, Int, Float, Bool, Date, Datetime, Enum, Opaque, Any];
    for (kind, base) in (120..).zip(bases) {
        let parameter = Declaration::Parameter { name: "x".into(), ty: base.into(), default: None };
        let bytes = encode_schema(&Schema { declarations: vec![parameter] });
        let expected = sheet(&[(100, 1), (103, 0), (50, 0), (kind, 0)], &[b"x"]);
        assert_eq!(bytes, Ok(expected));
    }
}
