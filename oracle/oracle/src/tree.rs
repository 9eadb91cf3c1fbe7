//! Sheets while they are made: as a tree with texts in it, and as raw tokens
//! and names. Neither has to be a sheet that 01 accepts.

use std::collections::BTreeMap;

use crate::sheet::{Sheet, SheetKind};

/// A token and all that belongs to it; a Name carries its text.
#[derive(Clone, Debug, PartialEq, Eq)]
pub struct Tree {
    pub kind: u8,
    pub value: u32,
    pub text: String,
    pub kids: Vec<Tree>,
}

impl Tree {
    pub fn new(kind: u8, value: u32, kids: Vec<Tree>) -> Self {
        Tree { kind, value, text: String::new(), kids }
    }

    pub fn leaf(kind: u8, value: u32) -> Self {
        Tree::new(kind, value, Vec::new())
    }

    pub fn name(text: &str) -> Self {
        Tree { kind: 50, value: 0, text: text.into(), kids: Vec::new() }
    }

    /// How many tokens it has.
    pub fn tokens(&self) -> usize {
        1 + self.kids.iter().map(Tree::tokens).sum::<usize>()
    }

    /// The tree of a sheet that was read.
    pub fn of(sheet: &Sheet) -> Self {
        Tree::of_token(sheet, 0)
    }

    fn of_token(sheet: &Sheet, token: usize) -> Self {
        if sheet.kind(token) == 50 {
            return Tree::name(sheet.text(token));
        }
        let kids = sheet.kids(token).iter().map(|kid| Tree::of_token(sheet, *kid)).collect();
        Tree::new(sheet.kind(token), sheet.value(token), kids)
    }

    /// The sheet with each text once, numbered by first use.
    pub fn raw(&self) -> Raw {
        let mut raw = Raw::default();
        let mut numbers: BTreeMap<String, usize> = BTreeMap::new();
        self.write(&mut raw, &mut |names, text| {
            numbers.get(text).copied().unwrap_or_else(|| {
                names.push(text.as_bytes().to_vec());
                numbers.insert(text.to_owned(), names.len() - 1);
                names.len() - 1
            })
        });
        raw
    }

    /// Appends the tokens; `number` finds or makes a name's number.
    pub fn write(&self, raw: &mut Raw, number: &mut impl FnMut(&mut Vec<Vec<u8>>, &str) -> usize) {
        let value = match self.kind {
            50 => number(&mut raw.names, &self.text) as u32,
            _ => self.value,
        };
        raw.tokens.push((self.kind, value));
        for kid in &self.kids {
            kid.write(raw, number);
        }
    }
}

/// Tokens and names as they stand in a sheet, and its kind.
#[derive(Clone, Debug, Default, PartialEq, Eq)]
pub struct Raw {
    pub tokens: Vec<(u8, u32)>,
    pub names: Vec<Vec<u8>>,
    pub kind: SheetKind,
}

impl Raw {
    /// Of the first kind.
    pub fn new(tokens: Vec<(u8, u32)>, names: Vec<Vec<u8>>) -> Self {
        Raw { tokens, names, kind: SheetKind::First }
    }

    pub fn in_kind(self, kind: SheetKind) -> Self {
        Raw { kind, ..self }
    }

    /// Those of a sheet that was read, in the first kind.
    pub fn of(sheet: &Sheet) -> Self {
        let tokens = sheet.tokens.iter().map(|token| (token.kind, token.value)).collect();
        let names = sheet.names.iter().map(|name| name.as_bytes().to_vec()).collect();
        Raw::new(tokens, names)
    }

    pub fn bytes(&self) -> Vec<u8> {
        let text: usize = self.names.iter().map(Vec::len).sum();
        let mut bytes = Vec::new();
        let count = self.tokens.len() as u32 | self.kind.mark();
        for size in [count, self.names.len() as u32, text as u32] {
            bytes.extend(size.to_le_bytes());
        }
        bytes.extend(self.tokens.iter().map(|(kind, _)| *kind));
        bytes.extend(self.tokens.iter().flat_map(|(_, value)| value.to_le_bytes()));
        let mut end = 0;
        for name in &self.names {
            end += name.len() as u32;
            bytes.extend(&end.to_le_bytes()[..self.kind.end_width()]);
        }
        bytes.extend(self.names.concat());
        bytes
    }
}
