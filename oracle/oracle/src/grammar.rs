//! Both grammars of document 01 as one table, which the reader, the
//! generator and the shrinker share.

use Class::*;
use Times::*;

/// A place in a sheet, by what may stand there.
#[derive(Clone, Copy, Debug, PartialEq, Eq)]
pub enum Class {
    Statement,
    Clause,
    SetItem,
    RemoveItem,
    Pattern,
    Part,
    Element,
    Expr,
    MapItem,
    Start,
    End,
    Name,
    Schema,
    Declaration,
    LabelItem,
    RelTypeItem,
    Type,
}

impl Class {
    /// The kinds that may stand in this place.
    pub fn kinds(self) -> &'static [u8] {
        match self {
            Statement => &[90],
            Clause => &[70, 71, 72, 73, 74, 75, 76, 77, 78, 79, 85],
            SetItem => &[80, 81, 82],
            RemoveItem => &[83, 84],
            Pattern => &[60],
            Part => &[61],
            Element => &[62, 63],
            Expr => &[
                1, 2, 3, 4, 5, 6, 7, 8, 9, 10, 11, 12, 13, 14, 16, 17, 18, 19, 20, 21, 22, 23, 24,
                25, 26,
            ],
            MapItem => &[27, 28, 29, 30],
            Start | End => &[51],
            Name => &[50],
            Schema => &[100],
            Declaration => &[101, 102, 103, 104, 105, 106],
            LabelItem => &[110, 111],
            RelTypeItem => &[110, 111, 112, 113],
            Type => &[120, 121, 122, 123, 124, 125, 126, 127, 128],
        }
    }
}

/// Which values a kind allows by itself. A Name also has to be below M, an
/// end Number not below its start.
#[derive(Clone, Copy, Debug, PartialEq, Eq)]
pub enum Values {
    Zero,
    UpTo(u32),
    Any,
}

impl Values {
    pub fn allow(self, value: u32) -> bool {
        match self {
            Values::Zero => value == 0,
            Values::UpTo(most) => value <= most,
            Values::Any => true,
        }
    }
}

/// How often a group of places repeats, by the token's value.
#[derive(Clone, Copy, Debug, PartialEq, Eq)]
pub enum Times {
    Once,
    Value,
    Half,
    Quarter,
    Bit0,
    Bit1,
}

impl Times {
    pub fn count(self, value: u32) -> u32 {
        match self {
            Once => 1,
            Value => value,
            Half => value / 2,
            Quarter => value / 4,
            Bit0 => value % 2,
            Bit1 => value / 2 % 2,
        }
    }

    /// What one repetition adds to the value.
    pub fn weight(self) -> u32 {
        match self {
            Once => 0,
            Value | Bit0 => 1,
            Half | Bit1 => 2,
            Quarter => 4,
        }
    }
}

/// A group of places that repeats as a whole.
#[derive(Clone, Copy, Debug)]
pub struct Slot {
    pub times: Times,
    pub of: &'static [Class],
}

/// What 01 says of one kind.
#[derive(Clone, Copy, Debug)]
pub struct Rule {
    pub kind: u8,
    pub word: &'static str,
    pub values: Values,
    pub holds: &'static [Slot],
}

const fn slot(times: Times, of: &'static [Class]) -> Slot {
    Slot { times, of }
}

const fn rule(kind: u8, word: &'static str, values: Values, holds: &'static [Slot]) -> Rule {
    Rule { kind, word, values, holds }
}

const LEAF: &[Slot] = &[];
const ONE_EXPR: &[Slot] = &[slot(Once, &[Expr])];
const TWO_EXPRS: &[Slot] = &[slot(Once, &[Expr, Expr])];
const VALUE_EXPRS: &[Slot] = &[slot(Value, &[Expr])];
const VALUE_NAMES: &[Slot] = &[slot(Value, &[Name])];
const ONE_NAME: &[Slot] = &[slot(Once, &[Name])];
const NAME_EXPR: &[Slot] = &[slot(Once, &[Name, Expr])];
const ONE_PATTERN: &[Slot] = &[slot(Once, &[Pattern])];
const ELEMENT: &[Slot] = &[slot(Once, &[Start, End]), slot(Half, &[Name]), slot(Bit0, &[Expr])];

/// Document 01, "The sheet", kind by kind.
pub const RULES: &[Rule] = &[
    rule(90, "Statement", Values::Any, &[slot(Value, &[Clause])]),
    rule(70, "Match", Values::Zero, ONE_PATTERN),
    rule(71, "Create", Values::Zero, ONE_PATTERN),
    rule(72, "Merge", Values::Zero, ONE_PATTERN),
    rule(73, "Where", Values::Zero, ONE_EXPR),
    rule(74, "With", Values::Any, &[slot(Half, &[Expr]), slot(Bit0, &[Expr])]),
    rule(75, "Return", Values::Any, VALUE_EXPRS),
    rule(76, "Unwind", Values::Zero, ONE_EXPR),
    rule(77, "Set", Values::Any, &[slot(Value, &[SetItem])]),
    rule(78, "Remove", Values::Any, &[slot(Value, &[RemoveItem])]),
    rule(79, "Delete", Values::Any, VALUE_EXPRS),
    rule(85, "CallClause", Values::Any, &[slot(Once, &[Start, End, Name]), slot(Value, &[Expr])]),
    rule(80, "SetProperty", Values::Zero, TWO_EXPRS),
    rule(81, "AssignMap", Values::Zero, ONE_EXPR),
    rule(82, "SetLabels", Values::Any, VALUE_NAMES),
    rule(83, "RemoveProperty", Values::Zero, ONE_EXPR),
    rule(84, "RemoveLabels", Values::Any, VALUE_NAMES),
    rule(60, "Pattern", Values::Any, &[slot(Value, &[Part])]),
    rule(61, "Part", Values::Any, &[slot(Value, &[Element])]),
    rule(62, "Node", Values::Any, ELEMENT),
    rule(63, "Rel", Values::Any, ELEMENT),
    rule(1, "Null", Values::Zero, LEAF),
    rule(2, "Bool", Values::Zero, LEAF),
    rule(3, "Int", Values::Zero, LEAF),
    rule(4, "Float", Values::Zero, LEAF),
    rule(5, "String", Values::Zero, LEAF),
    rule(6, "Var", Values::Zero, LEAF),
    rule(7, "Param", Values::Zero, LEAF),
    rule(8, "Unresolved", Values::Zero, LEAF),
    rule(9, "ExistsSubqueryDeferred", Values::Zero, LEAF),
    rule(10, "Prop", Values::Zero, NAME_EXPR),
    rule(11, "Index", Values::Zero, TWO_EXPRS),
    rule(
        12,
        "Slice",
        Values::UpTo(3),
        &[slot(Once, &[Expr]), slot(Bit0, &[Expr]), slot(Bit1, &[Expr])],
    ),
    rule(13, "List", Values::Any, VALUE_EXPRS),
    rule(14, "Map", Values::Any, &[slot(Value, &[Name, Expr])]),
    rule(16, "Call", Values::Any, &[slot(Once, &[Name]), slot(Value, &[Expr])]),
    rule(17, "BinOp", Values::Zero, TWO_EXPRS),
    rule(18, "UnaryOp", Values::Zero, ONE_EXPR),
    rule(19, "IsNull", Values::Zero, ONE_EXPR),
    rule(
        20,
        "Case",
        Values::Any,
        &[slot(Bit0, &[Expr]), slot(Quarter, &[Expr, Expr]), slot(Bit1, &[Expr])],
    ),
    rule(21, "InList", Values::Zero, TWO_EXPRS),
    rule(22, "PatternPredicate", Values::Zero, ONE_PATTERN),
    rule(
        23,
        "PatternComprehension",
        Values::UpTo(1),
        &[slot(Once, &[Pattern]), slot(Bit0, &[Expr]), slot(Once, &[Expr])],
    ),
    rule(
        24,
        "ListComprehension",
        Values::UpTo(1),
        &[slot(Once, &[Expr]), slot(Bit0, &[Expr]), slot(Once, &[Expr])],
    ),
    rule(25, "ListPredicate", Values::UpTo(1), &[slot(Once, &[Expr]), slot(Bit0, &[Expr])]),
    rule(26, "MapProjection", Values::Any, &[slot(Once, &[Expr]), slot(Value, &[MapItem])]),
    rule(27, "Computed", Values::Zero, NAME_EXPR),
    rule(28, "Aliased", Values::Zero, NAME_EXPR),
    rule(29, "PropCopy", Values::Zero, ONE_NAME),
    rule(30, "VarShorthand", Values::Zero, ONE_NAME),
    rule(50, "Name", Values::Any, LEAF),
    rule(51, "Number", Values::Any, LEAF),
    rule(100, "Schema", Values::Any, &[slot(Value, &[Declaration])]),
    rule(101, "Label", Values::Any, &[slot(Once, &[Name]), slot(Value, &[LabelItem])]),
    rule(102, "RelType", Values::Any, &[slot(Once, &[Name]), slot(Value, &[RelTypeItem])]),
    rule(103, "Parameter", Values::UpTo(1), &[slot(Once, &[Name, Type]), slot(Bit0, &[Name])]),
    rule(104, "Function", Values::Any, ONE_NAME),
    rule(105, "Procedure", Values::Any, ONE_NAME),
    rule(106, "Apart", Values::Zero, &[slot(Once, &[Name, Name])]),
    rule(110, "Property", Values::UpTo(1), &[slot(Once, &[Name, Type])]),
    rule(111, "Tuple", Values::Any, VALUE_NAMES),
    rule(112, "StartLabel", Values::Zero, ONE_NAME),
    rule(113, "EndLabel", Values::Zero, ONE_NAME),
    rule(120, "TypeString", Values::UpTo(63), LEAF),
    rule(121, "TypeInt", Values::UpTo(63), LEAF),
    rule(122, "TypeFloat", Values::UpTo(63), LEAF),
    rule(123, "TypeBool", Values::UpTo(63), LEAF),
    rule(124, "TypeDate", Values::UpTo(63), LEAF),
    rule(125, "TypeDatetime", Values::UpTo(63), LEAF),
    rule(126, "TypeEnum", Values::UpTo(63), LEAF),
    rule(127, "TypeOpaque", Values::UpTo(63), LEAF),
    rule(128, "TypeAny", Values::UpTo(63), LEAF),
];

/// The rule of a kind, if 01 has the kind.
pub fn rule_of(kind: u8) -> Option<&'static Rule> {
    RULES.iter().find(|rule| rule.kind == kind)
}

/// The rule of a kind in a place, if it may stand there.
pub fn rule_in(class: Class, kind: u8) -> Option<&'static Rule> {
    if !class.kinds().contains(&kind) {
        return None;
    }
    rule_of(kind)
}
