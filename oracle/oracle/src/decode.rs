//! From an accepted statement sheet to `cyrs_hir::Statement`. What sheets do
//! not carry is filled so that it would draw diagnostics if the Rust's pass
//! ever looked at it: unknown functions, an unknown label, varied literals.

use cyrs_hir::{
    BinOp, Binding, Clause, Direction, Expr, HirId, HirOffset, HirSpan, ListPredKind,
    MapProjectionItem, OrderItem, Pattern, PatternElement, PatternPart, Projection, RelLength,
    RemoveItem, SetItem, ShortestPath, Statement, UnaryOp, UnionArm, VarId, VarKind, YieldItem,
};
use smol_str::SmolStr;

use crate::sheet::Sheet;

/// A name that no generated schema declares.
const NOT_CARRIED: &str = "not carried by the sheet";

/// Variables that have a binding; a Var beyond them has none.
const BINDINGS: u32 = 3;

pub fn statement(sheet: &Sheet) -> Statement {
    let decoder = Decoder { sheet };
    let mut statement = Statement::new(span(0, 0));
    statement.clauses = sheet.kids(0).iter().map(|clause| decoder.clause(*clause)).collect();
    for number in 0..BINDINGS {
        let id = VarId(number);
        let binding =
            Binding { id, name: not_carried(), kind: VarKind::Node, defined_at: span(0, 0) };
        statement.bindings.insert(id, binding);
    }
    statement.unions.push(union_arm());
    statement
}

fn span(start: u32, end: u32) -> HirSpan {
    HirSpan::new(HirOffset::new(start), HirOffset::new(end))
}

fn not_carried() -> SmolStr {
    SmolStr::new(NOT_CARRIED)
}

/// What is not carried varies with the token.
fn even(token: usize) -> bool {
    token.is_multiple_of(2)
}

fn unknown_call() -> Expr {
    Expr::Call { name: not_carried(), args: vec![Expr::Null], distinct: false }
}

fn order_by() -> Vec<OrderItem> {
    vec![OrderItem { expr: unknown_call(), descending: true, span: span(0, 0) }]
}

fn set_items() -> Vec<SetItem> {
    vec![
        SetItem::Property { target: unknown_call(), prop: not_carried(), value: unknown_call() },
        SetItem::AssignMap { target: VarId(0), map: unknown_call(), replace: true },
    ]
}

/// An arm whose every part would draw a diagnostic.
fn union_arm() -> UnionArm {
    let node = PatternElement::Node {
        id: HirId::DUMMY,
        bind: None,
        labels: vec![not_carried()],
        props: Some(unknown_call()),
        span: span(0, 0),
    };
    let pattern = Pattern { parts: vec![part(0, vec![node])] };
    let clauses = vec![
        Clause::Create { id: HirId::DUMMY, pattern, span: span(0, 0) },
        Clause::Where { id: HirId::DUMMY, predicate: unknown_call(), span: span(0, 0) },
    ];
    UnionArm { id: HirId::DUMMY, all: true, clauses, span: span(0, 0) }
}

fn part(seed: usize, elements: Vec<PatternElement>) -> PatternPart {
    let shortest = [ShortestPath::No, ShortestPath::Shortest, ShortestPath::AllShortest][seed % 3];
    PatternPart { named_as: (even(seed)).then_some(VarId(1)), elements, shortest }
}

struct Decoder<'a> {
    sheet: &'a Sheet,
}

impl Decoder<'_> {
    fn text(&self, token: usize) -> SmolStr {
        SmolStr::new(self.sheet.text(token))
    }

    fn texts(&self, token: usize) -> Vec<SmolStr> {
        self.sheet.names_under(token).iter().map(|name| self.text(*name)).collect()
    }

    fn exprs(&self, tokens: &[usize]) -> Vec<Expr> {
        tokens.iter().map(|token| self.expr(*token)).collect()
    }

    fn boxed(&self, token: usize) -> Box<Expr> {
        Box::new(self.expr(token))
    }

    fn flagged(&self, flag: bool, token: Option<&usize>) -> Option<Box<Expr>> {
        flag.then(|| self.boxed(*token.expect("a flagged child")))
    }

    fn clause(&self, token: usize) -> Clause {
        let id = HirId(token as u32);
        let kids = self.sheet.kids(token);
        let value = self.sheet.value(token) as usize;
        let span = span(0, 0);
        match self.sheet.kind(token) {
            70 => {
                let optional = even(token);
                Clause::Match { id, optional, pattern: self.pattern(kids[0]), span }
            }
            71 => Clause::Create { id, pattern: self.pattern(kids[0]), span },
            72 => Clause::Merge {
                id,
                pattern: self.pattern(kids[0]),
                on_create: set_items(),
                on_match: set_items(),
                span,
            },
            73 => Clause::Where { id, predicate: self.expr(kids[0]), span },
            74 => self.with(id, &kids[..value / 2], kids.get(value / 2)),
            75 => self.returns(id, kids),
            76 => Clause::Unwind { id, list: self.expr(kids[0]), bind: VarId(2), span },
            77 => {
                let items = kids.iter().map(|item| self.set_item(*item)).collect();
                Clause::Set { id, items, span }
            }
            78 => {
                let items = kids.iter().map(|item| self.remove_item(*item)).collect();
                Clause::Remove { id, items, span }
            }
            79 => Clause::Delete { id, targets: self.exprs(kids), detach: even(token), span },
            85 => self.call_clause(id, kids),
            kind => unreachable!("clause of kind {kind}"),
        }
    }

    fn projections(&self, tokens: &[usize]) -> Vec<Projection> {
        let projection = |token: &usize| Projection {
            expr: self.expr(*token),
            alias: Some(not_carried()),
            span: span(0, 0),
        };
        tokens.iter().map(projection).collect()
    }

    fn with(&self, id: HirId, projections: &[usize], filter: Option<&usize>) -> Clause {
        Clause::With {
            id,
            projections: self.projections(projections),
            filter: filter.map(|token| self.expr(*token)),
            order_by: order_by(),
            skip: Some(unknown_call()),
            limit: Some(unknown_call()),
            span: span(0, 0),
        }
    }

    fn returns(&self, id: HirId, projections: &[usize]) -> Clause {
        Clause::Return {
            id,
            projections: self.projections(projections),
            distinct: true,
            order_by: order_by(),
            skip: Some(unknown_call()),
            limit: Some(unknown_call()),
            span: span(0, 0),
        }
    }

    fn call_clause(&self, id: HirId, kids: &[usize]) -> Clause {
        Clause::Call {
            id,
            procedure: self.text(kids[2]),
            args: self.exprs(&kids[3..]),
            yields: vec![YieldItem { name: not_carried(), alias: None, var: VarId(0) }],
            optional: false,
            span: self.span_of(kids),
        }
    }

    fn span_of(&self, kids: &[usize]) -> HirSpan {
        span(self.sheet.value(kids[0]), self.sheet.value(kids[1]))
    }

    fn set_item(&self, token: usize) -> SetItem {
        let kids = self.sheet.kids(token);
        match self.sheet.kind(token) {
            80 => SetItem::Property {
                target: self.expr(kids[0]),
                prop: not_carried(),
                value: self.expr(kids[1]),
            },
            81 => SetItem::AssignMap {
                target: VarId(0),
                map: self.expr(kids[0]),
                replace: even(token),
            },
            82 => SetItem::Labels { target: VarId(0), labels: self.texts(token) },
            kind => unreachable!("set item of kind {kind}"),
        }
    }

    fn remove_item(&self, token: usize) -> RemoveItem {
        let kids = self.sheet.kids(token);
        match self.sheet.kind(token) {
            83 => RemoveItem::Property { target: self.expr(kids[0]), prop: not_carried() },
            84 => RemoveItem::Labels { target: VarId(0), labels: self.texts(token) },
            kind => unreachable!("remove item of kind {kind}"),
        }
    }

    fn pattern(&self, token: usize) -> Pattern {
        let parts = self.sheet.kids(token).iter().map(|kid| {
            let elements = self.sheet.kids(*kid).iter().map(|element| self.element(*element));
            part(*kid, elements.collect())
        });
        Pattern { parts: parts.collect() }
    }

    fn element(&self, token: usize) -> PatternElement {
        let kids = self.sheet.kids(token);
        let names = self.texts(token);
        let props = self.flagged(self.sheet.value(token) % 2 == 1, kids.last()).map(|e| *e);
        let (id, span) = (HirId(token as u32), self.span_of(kids));
        let bind = (even(token)).then_some(VarId(token as u32 % 5));
        if self.sheet.kind(token) == 62 {
            return PatternElement::Node { id, bind, labels: names, props, span };
        }
        PatternElement::Rel {
            id,
            bind,
            types: names,
            direction: [Direction::Outgoing, Direction::Incoming, Direction::Undirected][token % 3],
            length: RelLength::Variable { min: Some(1), max: None },
            props,
            span,
        }
    }

    fn expr(&self, token: usize) -> Expr {
        let kids = self.sheet.kids(token);
        match self.sheet.kind(token) {
            1..=9 => self.leaf(token),
            10 => Expr::Prop { target: self.boxed(kids[1]), prop: self.text(kids[0]) },
            11 => Expr::Index { target: self.boxed(kids[0]), index: self.boxed(kids[1]) },
            12 => self.slice(token),
            13 => Expr::List(self.exprs(kids)),
            14 => {
                let pairs = kids.chunks_exact(2);
                Expr::Map(pairs.map(|pair| (self.text(pair[0]), self.expr(pair[1]))).collect())
            }
            16 => Expr::Call {
                name: self.text(kids[0]),
                args: self.exprs(&kids[1..]),
                distinct: even(token),
            },
            17 => Expr::BinOp {
                op: [BinOp::Add, BinOp::Eq, BinOp::And][token % 3],
                lhs: self.boxed(kids[0]),
                rhs: self.boxed(kids[1]),
            },
            18 => Expr::UnaryOp {
                op: [UnaryOp::Neg, UnaryOp::Not][token % 2],
                operand: self.boxed(kids[0]),
            },
            19 => Expr::IsNull { operand: self.boxed(kids[0]), negated: even(token) },
            20 => self.case(token),
            21 => Expr::InList { operand: self.boxed(kids[0]), list: self.boxed(kids[1]) },
            22 => Expr::PatternPredicate(self.pattern(kids[0])),
            23 | 24 => self.comprehension(token),
            25 => self.list_predicate(token),
            26 => Expr::MapProjection {
                base: self.boxed(kids[0]),
                items: kids[1..].iter().map(|item| self.map_item(*item)).collect(),
            },
            kind => unreachable!("expression of kind {kind}"),
        }
    }

    /// Payloads are not carried: they vary with the token.
    fn leaf(&self, token: usize) -> Expr {
        match self.sheet.kind(token) {
            1 => Expr::Null,
            2 => Expr::Bool(even(token)),
            3 => Expr::Int(token as i64 - 7),
            4 => Expr::Float(token as f64 / 3.0),
            5 => Expr::String(not_carried()),
            6 => Expr::Var(VarId(token as u32 % (BINDINGS + 1))),
            7 => Expr::Param(not_carried()),
            8 => Expr::Unresolved(not_carried()),
            _ => Expr::ExistsSubqueryDeferred { span: span(0, 0) },
        }
    }

    fn slice(&self, token: usize) -> Expr {
        let kids = self.sheet.kids(token);
        let value = self.sheet.value(token);
        Expr::Slice {
            target: self.boxed(kids[0]),
            start: self.flagged(value % 2 == 1, kids.get(1)),
            end: self.flagged(value / 2 == 1, kids.last()),
        }
    }

    fn case(&self, token: usize) -> Expr {
        let kids = self.sheet.kids(token);
        let value = self.sheet.value(token) as usize;
        let arms = &kids[value % 2..][..value / 4 * 2];
        Expr::Case {
            scrutinee: self.flagged(value % 2 == 1, kids.first()),
            arms: arms.chunks_exact(2).map(|arm| (self.expr(arm[0]), self.expr(arm[1]))).collect(),
            otherwise: self.flagged(value / 2 % 2 == 1, kids.last()),
        }
    }

    fn comprehension(&self, token: usize) -> Expr {
        let kids = self.sheet.kids(token);
        let filter = self.flagged(self.sheet.value(token) == 1, kids.get(1));
        let map_expr = self.boxed(*kids.last().expect("a projection"));
        if self.sheet.kind(token) == 23 {
            let pattern = self.pattern(kids[0]);
            return Expr::PatternComprehension { pattern, filter, map_expr, span: span(0, 0) };
        }
        let iterable = self.boxed(kids[0]);
        Expr::ListComprehension { filter_var: VarId(0), iterable, filter, map_expr }
    }

    fn list_predicate(&self, token: usize) -> Expr {
        let kids = self.sheet.kids(token);
        Expr::ListPredicate {
            kind: [ListPredKind::Any, ListPredKind::All, ListPredKind::None][token % 3],
            var: VarId(0),
            iterable: self.boxed(kids[0]),
            predicate: self.flagged(self.sheet.value(token) == 1, kids.get(1)),
        }
    }

    fn map_item(&self, token: usize) -> MapProjectionItem {
        let kids = self.sheet.kids(token);
        let key = self.text(kids[0]);
        match self.sheet.kind(token) {
            27 => MapProjectionItem::Computed { key, value: self.expr(kids[1]) },
            28 => MapProjectionItem::Aliased { key, value: self.expr(kids[1]) },
            29 => MapProjectionItem::PropCopy { prop: key },
            _ => MapProjectionItem::VarShorthand { var: VarId(0), name: key },
        }
    }
}
