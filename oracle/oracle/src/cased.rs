//! What a pair has of names that are alike but for case: each is a place where
//! a folding that goes too far, or not far enough, gives another answer. A run
//! has to have every one.

use std::collections::HashSet;

use crate::folded::same_folded;
use crate::items::{Item, declaration, declares, map_of};
use crate::sheet::Sheet;

#[derive(Clone, Copy, Debug, PartialEq, Eq, PartialOrd, Ord)]
pub enum Cased {
    /// A call of a function that is declared in other case alone.
    Found,
    /// A call as a function is spelt, where an earlier one in other case, with
    /// another signature, counts.
    FirstCounts,
    /// A name that is called so, and a label too.
    CalledAndLabel,
    /// An unknown call that folding [ as {, @ as `, or É as é would find.
    Bracket,
    AtSign,
    Accent,
    /// What is not declared but in other case.
    Procedure,
    Label,
    RelType,
    Key,
    /// A tuple that backs no MERGE, or labels that no Apart has, but for case.
    Tuple,
    Apart,
    /// Declarations that are not refused, since they differ in case.
    Declarations,
}

pub const CASED: [Cased; 13] = [
    Cased::Found,
    Cased::FirstCounts,
    Cased::CalledAndLabel,
    Cased::Bracket,
    Cased::AtSign,
    Cased::Accent,
    Cased::Procedure,
    Cased::Label,
    Cased::RelType,
    Cased::Key,
    Cased::Tuple,
    Cased::Apart,
    Cased::Declarations,
];

type Fold = fn(&str) -> String;

fn with_brackets(text: &str) -> String {
    text.to_ascii_lowercase().replace('[', "{")
}

fn with_at_signs(text: &str) -> String {
    text.to_ascii_lowercase().replace('@', "`")
}

/// What a breach of that code says is not there, and the folding that would
/// find it among the declarations of that kind.
const UNKNOWN: [(Cased, u32, u8, Fold); 6] = [
    (Cased::Bracket, 3006, 104, with_brackets),
    (Cased::AtSign, 3006, 104, with_at_signs),
    (Cased::Accent, 3006, 104, str::to_lowercase),
    (Cased::Procedure, 3008, 105, str::to_ascii_lowercase),
    (Cased::Label, 3001, 101, str::to_ascii_lowercase),
    (Cased::RelType, 3002, 102, str::to_ascii_lowercase),
];

/// Those that a pair of that list has.
pub fn cased(statement: &Sheet, schema: &Sheet, items: &[Item]) -> Vec<Cased> {
    let pair = Pair { statement, schema, items };
    let unknown = UNKNOWN.iter().filter(|(_, code, kind, fold)| pair.finds(*code, *kind, *fold));
    let others = [
        (Cased::Found, pair.found().next().is_some()),
        (Cased::FirstCounts, pair.calls().any(|name| pair.first_counts(name))),
        (Cased::CalledAndLabel, pair.called_and_label()),
        (Cased::Key, pair.of_code(3003).any(|item| pair.key(item))),
        (Cased::Tuple, pair.of_code(3009).any(|item| pair.tuple(item))),
        (Cased::Apart, pair.apart()),
        (Cased::Declarations, pair.declarations()),
    ];
    let others = others.into_iter().filter_map(|(cased, has)| has.then_some(cased));
    unknown.map(|(cased, ..)| *cased).chain(others).collect()
}

struct Pair<'a> {
    statement: &'a Sheet,
    schema: &'a Sheet,
    items: &'a [Item],
}

impl<'a> Pair<'a> {
    fn of_code(&self, code: u32) -> impl Iterator<Item = &'a Item> {
        self.items.iter().filter(move |item| item.code == code)
    }

    /// The statement's tokens of a kind.
    fn of_kind(&self, kind: u8) -> impl Iterator<Item = usize> + '_ {
        (0..self.statement.tokens.len()).filter(move |token| self.statement.kind(*token) == kind)
    }

    /// The names of a kind's declarations, folded.
    fn declared(&self, kind: u8, fold: Fold) -> HashSet<String> {
        let tokens = self.schema.kids_of_kind(0, kind).into_iter();
        tokens.map(|token| fold(self.schema.text(self.schema.kids(token)[0]))).collect()
    }

    fn finds(&self, code: u32, kind: u8, fold: Fold) -> bool {
        let mut unknown = self.of_code(code).peekable();
        if unknown.peek().is_none() {
            return false;
        }
        let declared = self.declared(kind, fold);
        unknown.any(|item| {
            let names = self.statement.texts_under(item.owner as usize);
            declared.contains(&fold(names[item.ordinal as usize]))
        })
    }

    /// The names of functions that are called.
    fn calls(&self) -> impl Iterator<Item = &'a str> + '_ {
        self.of_kind(16).map(|token| self.statement.text(self.statement.kids(token)[0]))
    }

    /// Those that are declared in other case alone.
    fn found(&self) -> impl Iterator<Item = &'a str> + '_ {
        let exact = self.declared(104, str::to_owned);
        let folded = self.declared(104, str::to_ascii_lowercase);
        self.calls().filter(move |name| {
            !exact.contains(*name) && folded.contains(&name.to_ascii_lowercase())
        })
    }

    fn first_counts(&self, name: &str) -> bool {
        let named = |token: &usize| self.schema.text(self.schema.kids(*token)[0]) == name;
        let spelt = self.schema.kids_of_kind(0, 104).into_iter().find(named);
        let counts = declaration(self.schema, 104, name);
        let other = |(spelt, counts)| self.schema.value(spelt) != self.schema.value(counts);
        spelt.zip(counts).is_some_and(other)
    }

    fn called_and_label(&self) -> bool {
        let labels: HashSet<&str> =
            self.of_kind(62).flat_map(|token| self.statement.texts_under(token)).collect();
        self.found().any(|name| labels.contains(name))
    }

    /// The declarations of an element's names that are there.
    fn owners(&self, element: usize) -> Vec<usize> {
        let kind = declares(self.statement.kind(element));
        let names = self.statement.texts_under(element).into_iter();
        names.filter_map(|name| declaration(self.schema, kind, name)).collect()
    }

    fn key(&self, item: &Item) -> bool {
        let element = item.owner as usize;
        let map = map_of(self.statement, element).expect("a Map");
        let key = self.statement.text(self.statement.kids(map)[2 * item.ordinal as usize]);
        let is_key =
            |property: usize| same_folded(self.schema.text(self.schema.kids(property)[0]), key);
        let owners = self.owners(element).into_iter();
        owners.flat_map(|owner| self.schema.kids_of_kind(owner, 110)).any(is_key)
    }

    fn tuple(&self, item: &Item) -> bool {
        let element = item.owner as usize;
        let map = map_of(self.statement, element).expect("a Map");
        let keys: HashSet<String> = lowered(self.statement.texts_under(map));
        let backs = |tuple: usize| {
            let mut names = self.schema.texts_under(tuple).into_iter();
            names.all(|name| keys.contains(&name.to_ascii_lowercase()))
        };
        let owners = self.owners(element).into_iter();
        owners.flat_map(|owner| self.schema.kids_of_kind(owner, 111)).any(backs)
    }

    /// Labels of a SET that draw nothing.
    fn apart(&self) -> bool {
        let aparts = self.schema.kids_of_kind(0, 106).into_iter();
        let aparts: Vec<HashSet<String>> =
            aparts.map(|apart| lowered(self.schema.texts_under(apart))).collect();
        let breaches: HashSet<usize> = self.of_code(4023).map(|item| item.owner as usize).collect();
        let mut sets = self.of_kind(82).filter(|token| self.statement.value(*token) > 1);
        sets.any(|token| {
            let labels = lowered(self.statement.texts_under(token));
            !breaches.contains(&token) && aparts.iter().any(|apart| apart.is_subset(&labels))
        })
    }

    /// Labels, relationship types or parameters of one folded name.
    fn declarations(&self) -> bool {
        (101..=103).any(|kind| {
            let folded = self.declared(kind, str::to_ascii_lowercase);
            folded.len() < self.schema.kids_of_kind(0, kind).len()
        })
    }
}

fn lowered(texts: Vec<&str>) -> HashSet<String> {
    texts.into_iter().map(str::to_ascii_lowercase).collect()
}
