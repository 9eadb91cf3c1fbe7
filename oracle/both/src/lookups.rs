//! Lookups of names as an archive could have them that folds too little, too
//! much, or other kinds than functions.

use oracle::items::declaration;
use oracle::sheet::Sheet;

/// Kinds of declarations.
const LABEL: u8 = 101;
const REL_TYPE: u8 = 102;
const FUNCTION: u8 = 104;
const PROCEDURE: u8 = 105;

type Fold = fn(&str) -> String;

/// The declarations of that kind whose folded names are one.
fn all(fold: Fold, schema: &Sheet, kind: u8, name: &str) -> Vec<usize> {
    let declared = |token: usize| fold(schema.text(schema.kids(token)[0]));
    let mut tokens = schema.kids_of_kind(0, kind);
    tokens.retain(|token| declared(*token) == fold(name));
    tokens
}

fn first(fold: Fold, schema: &Sheet, kind: u8, name: &str) -> Option<usize> {
    all(fold, schema, kind, name).first().copied()
}

/// Functions as one folding has them, all else exactly.
fn functions(fold: Fold, schema: &Sheet, kind: u8, name: &str) -> Option<usize> {
    first(if kind == FUNCTION { fold } else { str::to_owned }, schema, kind, name)
}

pub fn exactly(schema: &Sheet, kind: u8, name: &str) -> Option<usize> {
    functions(str::to_owned, schema, kind, name)
}

pub fn brackets_too(schema: &Sheet, kind: u8, name: &str) -> Option<usize> {
    functions(|text| text.to_ascii_lowercase().replace('[', "{"), schema, kind, name)
}

pub fn at_signs_too(schema: &Sheet, kind: u8, name: &str) -> Option<usize> {
    functions(|text| text.to_ascii_lowercase().replace('@', "`"), schema, kind, name)
}

pub fn accents_too(schema: &Sheet, kind: u8, name: &str) -> Option<usize> {
    functions(str::to_lowercase, schema, kind, name)
}

/// Another kind folded as functions are.
fn folded_too(other: u8, schema: &Sheet, kind: u8, name: &str) -> Option<usize> {
    match kind == other {
        true => first(str::to_ascii_lowercase, schema, kind, name),
        false => declaration(schema, kind, name),
    }
}

pub fn procedures_too(schema: &Sheet, kind: u8, name: &str) -> Option<usize> {
    folded_too(PROCEDURE, schema, kind, name)
}

pub fn labels_too(schema: &Sheet, kind: u8, name: &str) -> Option<usize> {
    folded_too(LABEL, schema, kind, name)
}

pub fn types_too(schema: &Sheet, kind: u8, name: &str) -> Option<usize> {
    folded_too(REL_TYPE, schema, kind, name)
}

pub fn last_counts(schema: &Sheet, kind: u8, name: &str) -> Option<usize> {
    match kind {
        FUNCTION => all(str::to_ascii_lowercase, schema, kind, name).last().copied(),
        _ => declaration(schema, kind, name),
    }
}

pub fn spelling_counts(schema: &Sheet, kind: u8, name: &str) -> Option<usize> {
    exactly(schema, kind, name).or_else(|| declaration(schema, kind, name))
}

/// Another name of that kind that is declared and alike but for case.
pub fn in_other_case<'a>(schema: &'a Sheet, kind: u8, name: &str) -> Option<&'a str> {
    let mut names = schema.kids_of_kind(0, kind).into_iter();
    let named = |token: usize| schema.text(schema.kids(token)[0]);
    let alike = |other: &&str| *other != name && other.eq_ignore_ascii_case(name);
    names.find_map(|token| Some(named(token)).filter(alike))
}

/// The first label that an earlier one is alike to but for case.
pub fn label_in_other_case(schema: &Sheet) -> Option<usize> {
    let labels = schema.kids_of_kind(0, LABEL);
    let again = |token: &usize| {
        let name = schema.text(schema.kids(*token)[0]);
        first(str::to_ascii_lowercase, schema, LABEL, name) != Some(*token)
    };
    labels.into_iter().find(again)
}
