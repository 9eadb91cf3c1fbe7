//! A lowered statement as far as the check looks at it: document 01's statement sheet, with the names of the Rust's
//! HIR. Literals, bindings, aliases, directions, ORDER BY, SKIP, LIMIT, ON CREATE, ON MATCH and UNION arms are not
//! carried.
use super::writer::{count, flag, Token, Writer};
use super::EncodeError;
use crate::Span;

#[derive(Clone, Debug, Default, PartialEq, Eq)]
pub struct Statement {
    pub clauses: Vec<Clause>,
}

#[derive(Clone, Debug, PartialEq, Eq)]
pub enum Clause {
    Match(Pattern),
    Create(Pattern),
    Merge(Pattern),
    Where(Expr),
    With { projections: Vec<Expr>, filter: Option<Expr> },
    Return(Vec<Expr>),
    Unwind(Expr),
    Set(Vec<SetItem>),
    Remove(Vec<RemoveItem>),
    Delete(Vec<Expr>),
    Call { span: Span, procedure: String, args: Vec<Expr> },
}

#[derive(Clone, Debug, PartialEq, Eq)]
pub enum SetItem {
    Property { target: Expr, value: Expr },
    AssignMap(Expr),
    Labels(Vec<String>),
}

#[derive(Clone, Debug, PartialEq, Eq)]
pub enum RemoveItem {
    Property(Expr),
    Labels(Vec<String>),
}

#[derive(Clone, Debug, Default, PartialEq, Eq)]
pub struct Pattern {
    pub parts: Vec<Part>,
}

#[derive(Clone, Debug, Default, PartialEq, Eq)]
pub struct Part {
    pub elements: Vec<Element>,
}

#[derive(Clone, Copy, Debug, PartialEq, Eq)]
pub enum ElementKind {
    Node,
    Rel,
}

/// A node with its labels, or a relationship with its types.
#[derive(Clone, Debug, PartialEq, Eq)]
pub struct Element {
    pub kind: ElementKind,
    pub span: Span,
    pub names: Vec<String>,
    pub props: Option<Expr>,
}

#[derive(Clone, Debug, PartialEq, Eq)]
pub enum Expr {
    Null,
    Bool,
    Int,
    Float,
    String,
    Var,
    Param,
    Unresolved,
    ExistsSubqueryDeferred,
    Prop { target: Box<Expr>, prop: String },
    Index { target: Box<Expr>, index: Box<Expr> },
    Slice { target: Box<Expr>, start: Option<Box<Expr>>, end: Option<Box<Expr>> },
    List(Vec<Expr>),
    Map(Vec<(String, Expr)>),
    Call { name: String, args: Vec<Expr> },
    BinOp { lhs: Box<Expr>, rhs: Box<Expr> },
    UnaryOp(Box<Expr>),
    IsNull(Box<Expr>),
    Case { scrutinee: Option<Box<Expr>>, arms: Vec<(Expr, Expr)>, otherwise: Option<Box<Expr>> },
    InList { operand: Box<Expr>, list: Box<Expr> },
    PatternPredicate(Pattern),
    PatternComprehension { pattern: Pattern, filter: Option<Box<Expr>>, map_expr: Box<Expr> },
    ListComprehension { iterable: Box<Expr>, filter: Option<Box<Expr>>, map_expr: Box<Expr> },
    ListPredicate { iterable: Box<Expr>, predicate: Option<Box<Expr>> },
    MapProjection { base: Box<Expr>, items: Vec<MapItem> },
}

/// An item of a map projection.
#[derive(Clone, Debug, PartialEq, Eq)]
pub enum MapItem {
    Computed { key: String, value: Expr },
    Aliased { key: String, value: Expr },
    PropCopy(String),
    VarShorthand(String),
}

impl Token for Statement {
    fn kind(&self) -> u8 {
        90
    }

    fn value(&self) -> Result<u32, EncodeError> {
        count(&self.clauses)
    }

    fn children<'a>(&'a self, out: &mut Writer<'a>) -> Result<(), EncodeError> {
        out.write_all(&self.clauses)
    }
}

impl Token for Clause {
    fn kind(&self) -> u8 {
        match self {
            Clause::Match(_) => 70,
            Clause::Create(_) => 71,
            Clause::Merge(_) => 72,
            Clause::Where(_) => 73,
            Clause::With { .. } => 74,
            Clause::Return(_) => 75,
            Clause::Unwind(_) => 76,
            Clause::Set(_) => 77,
            Clause::Remove(_) => 78,
            Clause::Delete(_) => 79,
            Clause::Call { .. } => 85,
        }
    }

    fn value(&self) -> Result<u32, EncodeError> {
        match self {
            Clause::With { projections, filter } => Ok(2 * count(projections)? + flag(filter)),
            Clause::Return(exprs) | Clause::Delete(exprs) => count(exprs),
            Clause::Set(items) => count(items),
            Clause::Remove(items) => count(items),
            Clause::Call { args, .. } => count(args),
            _ => Ok(0),
        }
    }

    fn children<'a>(&'a self, out: &mut Writer<'a>) -> Result<(), EncodeError> {
        match self {
            Clause::Match(pattern) | Clause::Create(pattern) | Clause::Merge(pattern) => {
                out.write(pattern)
            }
            Clause::Where(expr) | Clause::Unwind(expr) => out.write(expr),
            Clause::With { projections, filter } => {
                out.write_all(projections)?;
                out.write_all(filter)
            }
            Clause::Return(exprs) | Clause::Delete(exprs) => out.write_all(exprs),
            Clause::Set(items) => out.write_all(items),
            Clause::Remove(items) => out.write_all(items),
            Clause::Call { span, procedure, args } => {
                out.span(*span)?;
                out.name(procedure)?;
                out.write_all(args)
            }
        }
    }
}

impl Token for SetItem {
    fn kind(&self) -> u8 {
        match self {
            SetItem::Property { .. } => 80,
            SetItem::AssignMap(_) => 81,
            SetItem::Labels(_) => 82,
        }
    }

    fn value(&self) -> Result<u32, EncodeError> {
        match self {
            SetItem::Labels(names) => count(names),
            _ => Ok(0),
        }
    }

    fn children<'a>(&'a self, out: &mut Writer<'a>) -> Result<(), EncodeError> {
        match self {
            SetItem::Property { target, value } => out.write_all([target, value]),
            SetItem::AssignMap(map) => out.write(map),
            SetItem::Labels(names) => out.names(names),
        }
    }
}

impl Token for RemoveItem {
    fn kind(&self) -> u8 {
        match self {
            RemoveItem::Property(_) => 83,
            RemoveItem::Labels(_) => 84,
        }
    }

    fn value(&self) -> Result<u32, EncodeError> {
        match self {
            RemoveItem::Property(_) => Ok(0),
            RemoveItem::Labels(names) => count(names),
        }
    }

    fn children<'a>(&'a self, out: &mut Writer<'a>) -> Result<(), EncodeError> {
        match self {
            RemoveItem::Property(target) => out.write(target),
            RemoveItem::Labels(names) => out.names(names),
        }
    }
}

impl Token for Pattern {
    fn kind(&self) -> u8 {
        60
    }

    fn value(&self) -> Result<u32, EncodeError> {
        count(&self.parts)
    }

    fn children<'a>(&'a self, out: &mut Writer<'a>) -> Result<(), EncodeError> {
        out.write_all(&self.parts)
    }
}

impl Token for Part {
    fn kind(&self) -> u8 {
        61
    }

    fn value(&self) -> Result<u32, EncodeError> {
        count(&self.elements)
    }

    fn children<'a>(&'a self, out: &mut Writer<'a>) -> Result<(), EncodeError> {
        out.write_all(&self.elements)
    }
}

impl Token for Element {
    fn kind(&self) -> u8 {
        match self.kind {
            ElementKind::Node => 62,
            ElementKind::Rel => 63,
        }
    }

    fn value(&self) -> Result<u32, EncodeError> {
        Ok(2 * count(&self.names)? + flag(&self.props))
    }

    fn children<'a>(&'a self, out: &mut Writer<'a>) -> Result<(), EncodeError> {
        out.span(self.span)?;
        out.names(&self.names)?;
        out.write_all(&self.props)
    }
}

impl Token for Expr {
    fn kind(&self) -> u8 {
        match self {
            Expr::Null => 1,
            Expr::Bool => 2,
            Expr::Int => 3,
            Expr::Float => 4,
            Expr::String => 5,
            Expr::Var => 6,
            Expr::Param => 7,
            Expr::Unresolved => 8,
            Expr::ExistsSubqueryDeferred => 9,
            Expr::Prop { .. } => 10,
            Expr::Index { .. } => 11,
            Expr::Slice { .. } => 12,
            Expr::List(_) => 13,
            Expr::Map(_) => 14,
            Expr::Call { .. } => 16,
            Expr::BinOp { .. } => 17,
            Expr::UnaryOp(_) => 18,
            Expr::IsNull(_) => 19,
            Expr::Case { .. } => 20,
            Expr::InList { .. } => 21,
            Expr::PatternPredicate(_) => 22,
            Expr::PatternComprehension { .. } => 23,
            Expr::ListComprehension { .. } => 24,
            Expr::ListPredicate { .. } => 25,
            Expr::MapProjection { .. } => 26,
        }
    }

    fn value(&self) -> Result<u32, EncodeError> {
        match self {
            Expr::Slice { start, end, .. } => Ok(flag(start) + 2 * flag(end)),
            Expr::List(exprs) => count(exprs),
            Expr::Map(pairs) => count(pairs),
            Expr::Call { args, .. } => count(args),
            Expr::Case { scrutinee, arms, otherwise } => {
                Ok(4 * count(arms)? + 2 * flag(otherwise) + flag(scrutinee))
            }
            Expr::PatternComprehension { filter, .. } | Expr::ListComprehension { filter, .. } => {
                Ok(flag(filter))
            }
            Expr::ListPredicate { predicate, .. } => Ok(flag(predicate)),
            Expr::MapProjection { items, .. } => count(items),
            _ => Ok(0),
        }
    }

    fn children<'a>(&'a self, out: &mut Writer<'a>) -> Result<(), EncodeError> {
        match self {
            Expr::Prop { target, prop } => named(out, prop, target),
            Expr::Index { target: first, index: second }
            | Expr::BinOp { lhs: first, rhs: second }
            | Expr::InList { operand: first, list: second } => {
                out.write_all([first.as_ref(), second])
            }
            Expr::UnaryOp(operand) | Expr::IsNull(operand) => out.write(operand.as_ref()),
            Expr::List(exprs) => out.write_all(exprs),
            Expr::Map(pairs) => pairs.iter().try_for_each(|(key, value)| named(out, key, value)),
            Expr::Call { name, args } => {
                out.name(name)?;
                out.write_all(args)
            }
            Expr::PatternPredicate(pattern) => out.write(pattern),
            Expr::MapProjection { base, items } => {
                out.write(base.as_ref())?;
                out.write_all(items)
            }
            _ => parts(self, out),
        }
    }
}

fn named<'a>(out: &mut Writer<'a>, name: &'a str, expr: &'a Expr) -> Result<(), EncodeError> {
    out.name(name)?;
    out.write(expr)
}

/// The children of an expression that has parts which may be absent; a leaf has none.
fn parts<'a>(expr: &'a Expr, out: &mut Writer<'a>) -> Result<(), EncodeError> {
    match expr {
        Expr::Slice { target, start, end } => {
            out.write(target.as_ref())?;
            out.write_all(start.as_deref())?;
            out.write_all(end.as_deref())
        }
        Expr::Case { scrutinee, arms, otherwise } => {
            out.write_all(scrutinee.as_deref())?;
            out.write_all(arms.iter().flat_map(|(when, then)| [when, then]))?;
            out.write_all(otherwise.as_deref())
        }
        Expr::PatternComprehension { pattern, filter, map_expr } => {
            out.write(pattern)?;
            out.write_all(filter.as_deref())?;
            out.write(map_expr.as_ref())
        }
        Expr::ListComprehension { iterable, filter, map_expr } => {
            out.write(iterable.as_ref())?;
            out.write_all(filter.as_deref())?;
            out.write(map_expr.as_ref())
        }
        Expr::ListPredicate { iterable, predicate } => {
            out.write(iterable.as_ref())?;
            out.write_all(predicate.as_deref())
        }
        _ => Ok(()),
    }
}

impl Token for MapItem {
    fn kind(&self) -> u8 {
        match self {
            MapItem::Computed { .. } => 27,
            MapItem::Aliased { .. } => 28,
            MapItem::PropCopy(_) => 29,
            MapItem::VarShorthand(_) => 30,
        }
    }

    fn value(&self) -> Result<u32, EncodeError> {
        Ok(0)
    }

    fn children<'a>(&'a self, out: &mut Writer<'a>) -> Result<(), EncodeError> {
        match self {
            MapItem::Computed { key, value } | MapItem::Aliased { key, value } => {
                named(out, key, value)
            }
            MapItem::PropCopy(name) | MapItem::VarShorthand(name) => out.name(name),
        }
    }
}
