//! The messages of document 01, section 6, as pieces in turn: lengths can be
//! summed before anything is written.

use std::borrow::Cow;
use std::collections::BTreeSet;

use crate::items::{Item, declaration, declared_type, declares, function_shape, literal_type};
use crate::items::{map_of, property};
use crate::sheet::Sheet;

/// Parts of names, phrases and numbers.
pub type Pieces<'a> = Vec<Cow<'a, str>>;

/// The pieces of one item's message. Parameter counts above `most_shown` show
/// as that number: the comparison needs it, an answer passes `u32::MAX`.
pub fn pieces<'a>(
    statement: &'a Sheet,
    schema: &'a Sheet,
    item: &Item,
    most_shown: u32,
) -> Pieces<'a> {
    let writer = Writer { statement, schema, owner: item.owner as usize, most_shown };
    let ordinal = item.ordinal as usize;
    match item.code {
        3001 => quoted("unknown label `:", writer.name(ordinal)),
        3002 => quoted("unknown relationship type `:", writer.name(ordinal)),
        3003 => writer.undeclared_key(ordinal),
        3004 => writer.other_type(ordinal),
        3006 => quoted("unknown function `", writer.name(0)),
        3007 => writer.arguments(),
        3008 => quoted("unknown procedure `", writer.name(0)),
        3009 => writer.merge_key(),
        4023 => writer.labels_apart(),
        code => unreachable!("no message for {code}"),
    }
}

pub fn length(pieces: &[Cow<'_, str>]) -> usize {
    pieces.iter().map(|piece| piece.len()).sum()
}

fn quoted<'a>(phrase: &'static str, name: &'a str) -> Pieces<'a> {
    vec![phrase.into(), name.into(), "`".into()]
}

struct Writer<'a> {
    statement: &'a Sheet,
    schema: &'a Sheet,
    owner: usize,
    most_shown: u32,
}

impl<'a> Writer<'a> {
    fn name(&self, ordinal: usize) -> &'a str {
        self.statement.text(self.statement.names_under(self.owner)[ordinal])
    }

    /// Key and value token of the element's map.
    fn pair(&self, ordinal: usize) -> (&'a str, usize) {
        let map = map_of(self.statement, self.owner).expect("a Map");
        let kids = self.statement.kids(map);
        (self.statement.text(kids[2 * ordinal]), kids[2 * ordinal + 1])
    }

    /// ` on label(s) :A, :B` or ` on relationship type(s) ..`.
    fn on_names(&self) -> Pieces<'a> {
        let node = declares(self.statement.kind(self.owner)) == 101;
        let what = if node { " on label(s) " } else { " on relationship type(s) " };
        let mut pieces: Pieces<'a> = vec![what.into()];
        for (i, name) in self.statement.texts_under(self.owner).into_iter().enumerate() {
            pieces.push(if i == 0 { ":" } else { ", :" }.into());
            pieces.push(name.into());
        }
        pieces
    }

    fn undeclared_key(&self, ordinal: usize) -> Pieces<'a> {
        let mut pieces: Pieces<'a> = vec!["property `".into(), self.pair(ordinal).0.into()];
        pieces.push("` is not declared".into());
        pieces.extend(self.on_names());
        pieces
    }

    fn other_type(&self, ordinal: usize) -> Pieces<'a> {
        let (key, value) = self.pair(ordinal);
        let found = property(self.statement, self.schema, self.owner, key).expect("a Property");
        let declared = declared_type(self.schema, self.schema.kids(found)[1]);
        let inferred = literal_type(self.statement, value).expect("a literal");
        let words = ["` expects type `", declared.word(), "` but got `", inferred.word(), "`"];
        let mut pieces: Pieces<'a> = vec!["property `".into(), key.into()];
        pieces.extend(words.map(Cow::from));
        pieces
    }

    fn arguments(&self) -> Pieces<'a> {
        let function = self.statement.kind(self.owner) == 16;
        let kind = if function { 104 } else { 105 };
        let found = declaration(self.schema, kind, self.name(0)).expect("a signature");
        let (parameters, variadic) = match function {
            true => function_shape(self.schema, found),
            false => (self.schema.value(found), false),
        };
        vec![
            if function { "function `" } else { "procedure `" }.into(),
            self.name(0).into(),
            if variadic { "` expects at least " } else { "` expects exactly " }.into(),
            parameters.min(self.most_shown).to_string().into(),
            " argument(s) but got ".into(),
            self.statement.value(self.owner).to_string().into(),
        ]
    }

    fn labels_apart(&self) -> Pieces<'a> {
        let mut pieces: Pieces<'a> = vec!["labels ".into()];
        for name in self.statement.texts_under(self.owner) {
            pieces.push(":".into());
            pieces.push(name.into());
        }
        pieces.push(" cannot be combined on a single node".into());
        pieces
    }

    fn merge_key(&self) -> Pieces<'a> {
        let map = map_of(self.statement, self.owner).expect("a Map");
        let keys: BTreeSet<&str> = self.statement.texts_under(map).into_iter().collect();
        let mut pieces: Pieces<'a> = vec!["MERGE key {".into()];
        for (i, key) in keys.into_iter().enumerate() {
            pieces.push(if i == 0 { "" } else { ", " }.into());
            pieces.push(key.into());
        }
        pieces.push("}".into());
        pieces.extend(self.on_names());
        pieces.push(" is not backed by a declared uniqueness constraint".into());
        pieces
    }
}
