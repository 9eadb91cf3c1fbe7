//! The breaches of document 01, section 4, each a fact about one token, found
//! by plain loops over all tokens; and section 5's order, by sorting. Nothing
//! here walks the tree as the Rust does. Functions are looked up as 02 says.

use crate::folded::same_folded;
use crate::sheet::Sheet;

/// How many u32 an item has.
pub const ITEM_WIDTH: usize = 7;

/// One breach.
#[derive(Clone, Copy, Debug, PartialEq, Eq)]
pub struct Item {
    pub code: u32,
    pub start: u32,
    pub end: u32,
    pub owner: u32,
    pub stage: u32,
    pub ordinal: u32,
    /// The number of the clause that the owner stands in, from 0.
    pub clause: u32,
}

impl Item {
    pub fn numbers(&self) -> [u32; ITEM_WIDTH] {
        let Item { code, start, end, owner, stage, ordinal, clause } = *self;
        [code, start, end, owner, stage, ordinal, clause]
    }
}

/// All breaches of a statement under a schema, in 01's order.
pub fn items(statement: &Sheet, schema: &Sheet) -> Vec<Item> {
    items_by(declaration, statement, schema)
}

/// Finds a declaration of a schema by kind and name.
pub type Find = fn(&Sheet, u8, &str) -> Option<usize>;

/// The same where names on elements, functions and procedures are found in
/// another way.
pub fn items_by(find: Find, statement: &Sheet, schema: &Sheet) -> Vec<Item> {
    let facts = Facts { statement, schema, find };
    let mut found = Vec::new();
    for token in 0..statement.tokens.len() {
        match statement.kind(token) {
            62 | 63 => facts.element(token, &mut found),
            16 => found.extend(facts.function_call(token)),
            85 => found.extend(facts.procedure_call(token)),
            82 => found.extend(facts.apart_labels(token)),
            _ => {}
        }
    }
    found.sort_by_key(order);
    found
}

/// Section 5's order: by clause, E3009 last in each.
fn order(item: &Item) -> (u32, bool, u32, u32, u32) {
    let Item { clause, code, owner, stage, ordinal, .. } = *item;
    (clause, code == 3009, owner, stage, ordinal)
}

/// The clause that a token belongs to, as a token.
fn clause_of(statement: &Sheet, mut token: usize) -> usize {
    while statement.tokens[token].parent != 0 {
        token = statement.tokens[token].parent;
    }
    token
}

/// Its number: how many clauses stand before it.
fn clause_number(statement: &Sheet, token: usize) -> u32 {
    let clause = clause_of(statement, token);
    statement.kids(0).iter().filter(|before| **before < clause).count() as u32
}

/// The declaration of that kind and name that stands first.
pub fn declaration(schema: &Sheet, kind: u8, name: &str) -> Option<usize> {
    let declared = schema.kids(0).iter().copied();
    declared
        .filter(|token| schema.kind(*token) == kind)
        .find(|token| goes_by(kind, schema.text(schema.kids(*token)[0]), name))
}

/// Whether what is declared under one name goes by the other: a function in
/// either case of its letters, all else exactly.
fn goes_by(kind: u8, declared: &str, name: &str) -> bool {
    match kind {
        104 => same_folded(declared, name),
        _ => declared == name,
    }
}

/// The kind of declaration that an element's names speak of.
pub fn declares(element_kind: u8) -> u8 {
    if element_kind == 62 { 101 } else { 102 }
}

/// The Property that decides over a key: the first of that name in the first
/// of the element's names that has one.
pub fn property(statement: &Sheet, schema: &Sheet, element: usize, key: &str) -> Option<usize> {
    let kind = declares(statement.kind(element));
    for name in statement.texts_under(element) {
        let Some(declared) = declaration(schema, kind, name) else {
            continue;
        };
        for item in schema.kids_of_kind(declared, 110) {
            if schema.text(schema.kids(item)[0]) == key {
                return Some(item);
            }
        }
    }
    None
}

/// The element's properties, where they are a Map.
pub fn map_of(statement: &Sheet, element: usize) -> Option<usize> {
    let last = *statement.kids(element).last()?;
    (statement.value(element) % 2 == 1 && statement.kind(last) == 14).then_some(last)
}

/// A type: its base as a kind's word, under so many lists.
#[derive(Clone, Copy, Debug, PartialEq, Eq)]
pub struct Listed {
    pub base: &'static str,
    pub lists: u32,
}

impl Listed {
    /// The name in a message: a list is just List.
    pub fn word(self) -> &'static str {
        if self.lists > 0 { "List" } else { self.base }
    }
}

/// The type of a literal: lists are counted down to the first item.
pub fn literal_type(statement: &Sheet, mut token: usize) -> Option<Listed> {
    let mut lists = 0;
    while statement.kind(token) == 13 {
        lists += 1;
        match statement.kids(token).first() {
            Some(first) => token = *first,
            None => return Some(Listed { base: "Any", lists }),
        }
    }
    let base = match statement.kind(token) {
        1 => "Null",
        2 => "Bool",
        3 => "Int",
        4 => "Float",
        5 => "String",
        _ => return None,
    };
    Some(Listed { base, lists })
}

pub const DECLARED: [&str; 9] =
    ["String", "Int", "Float", "Bool", "Date", "Datetime", "Enum", "Opaque", "Any"];

/// The type of a Type token.
pub fn declared_type(schema: &Sheet, token: usize) -> Listed {
    let base = DECLARED[usize::from(schema.kind(token) - 120)];
    Listed { base, lists: schema.value(token) }
}

/// 01's `types_compatible`.
pub fn compatible(inferred: Listed, declared: Listed) -> bool {
    let both = inferred.lists.min(declared.lists);
    let scalar = |ty: Listed| (ty.lists == both).then_some(ty.base);
    match (scalar(inferred), scalar(declared)) {
        (Some("Any" | "Unknown" | "Null"), _) => true,
        (_, Some("Any" | "Opaque" | "Enum")) => true,
        (Some("Num"), Some("Int" | "Float")) => true,
        (Some(one), Some(other)) => one == other,
        _ => false,
    }
}

struct Facts<'a> {
    statement: &'a Sheet,
    schema: &'a Sheet,
    find: Find,
}

impl Facts<'_> {
    fn item(&self, code: u32, owner: usize, stage: u32, ordinal: usize) -> Item {
        let (start, end) = self.span(owner);
        let clause = clause_number(self.statement, owner);
        Item { code, start, end, owner: owner as u32, stage, ordinal: ordinal as u32, clause }
    }

    /// The token's own Numbers, or 0, 0 where it has none.
    fn span(&self, token: usize) -> (u32, u32) {
        let numbers = self.statement.kids_of_kind(token, 51);
        match numbers[..] {
            [start, end] => (self.statement.value(start), self.statement.value(end)),
            _ => (0, 0),
        }
    }

    fn element(&self, token: usize, found: &mut Vec<Item>) {
        let names = self.statement.texts_under(token);
        let kind = self.statement.kind(token);
        let code = if kind == 62 { 3001 } else { 3002 };
        for (i, name) in names.iter().enumerate() {
            if (self.find)(self.schema, declares(kind), name).is_none() {
                found.push(self.item(code, token, 0, i));
            }
        }
        if kind == 62 && self.directly_in(token, &[71, 72]) {
            found.extend(self.apart_labels(token));
        }
        let Some(map) = map_of(self.statement, token) else {
            return;
        };
        if names.is_empty() {
            return;
        }
        self.keys(token, map, found);
        if self.directly_in(token, &[72]) && self.merge_key_unbacked(token, map) {
            found.push(self.item(3009, token, 3, 0));
        }
    }

    /// Element, Part, Pattern, clause: directly in such a clause's pattern.
    fn directly_in(&self, element: usize, clauses: &[u8]) -> bool {
        let up = |token: usize| self.statement.tokens[token].parent;
        clauses.contains(&self.statement.kind(up(up(up(element)))))
    }

    /// E4023: two names or more, and an Apart pair among them.
    fn apart_labels(&self, token: usize) -> Option<Item> {
        let names = self.statement.texts_under(token);
        if names.len() < 2 {
            return None;
        }
        for apart in self.schema.kids_of_kind(0, 106) {
            let pair = self.schema.texts_under(apart);
            if names.contains(&pair[0]) && names.contains(&pair[1]) {
                return Some(self.item(4023, token, 1, 0));
            }
        }
        None
    }

    /// Stage 2: every key for itself.
    fn keys(&self, element: usize, map: usize, found: &mut Vec<Item>) {
        for (i, pair) in self.statement.kids(map).chunks_exact(2).enumerate() {
            let key = self.statement.text(pair[0]);
            let Some(declared) = property(self.statement, self.schema, element, key) else {
                found.push(self.item(3003, element, 2, i));
                continue;
            };
            let Some(inferred) = literal_type(self.statement, pair[1]) else {
                continue;
            };
            let declared = declared_type(self.schema, self.schema.kids(declared)[1]);
            if !compatible(inferred, declared) {
                found.push(self.item(3004, element, 2, i));
            }
        }
    }

    /// Demand 3's sentence on E3009, its second half.
    fn merge_key_unbacked(&self, element: usize, map: usize) -> bool {
        let keys = self.statement.texts_under(map);
        let kind = declares(self.statement.kind(element));
        let mut declared_any = false;
        for name in self.statement.texts_under(element) {
            let Some(declared) = declaration(self.schema, kind, name) else {
                continue;
            };
            for tuple in self.schema.kids_of_kind(declared, 111) {
                declared_any = true;
                if self.schema.texts_under(tuple).iter().all(|name| keys.contains(name)) {
                    return false;
                }
            }
        }
        declared_any
    }

    fn function_call(&self, token: usize) -> Option<Item> {
        let name = self.statement.text(self.statement.kids(token)[0]);
        let Some(function) = (self.find)(self.schema, 104, name) else {
            return Some(self.item(3006, token, 0, 0));
        };
        let (parameters, variadic) = function_shape(self.schema, function);
        let arguments = self.statement.value(token);
        let fits = if variadic { arguments >= parameters } else { arguments == parameters };
        (!fits).then(|| self.item(3007, token, 0, 0))
    }

    fn procedure_call(&self, token: usize) -> Option<Item> {
        let name = self.statement.text(self.statement.names_under(token)[0]);
        let Some(procedure) = (self.find)(self.schema, 105, name) else {
            return Some(self.item(3008, token, 0, 0));
        };
        let fits = self.statement.value(token) == self.schema.value(procedure);
        (!fits).then(|| self.item(3007, token, 0, 0))
    }
}

/// Parameters and variadic flag of a Function.
pub fn function_shape(schema: &Sheet, function: usize) -> (u32, bool) {
    let value = schema.value(function);
    (value / 2, value % 2 == 1)
}
