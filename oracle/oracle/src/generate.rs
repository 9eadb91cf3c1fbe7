//! Valid sheets by seed, grown from the grammar's table with weights that
//! make every kind, every code and deep nesting frequent.

use crate::grammar::{Class, Rule, Slot, Times, Values, rule_of};
use crate::rng::Rng;
use crate::sheet::{MAX_DEPTH, MAX_NAMES, MAX_TEXT, MAX_TOKENS, SheetKind};
use crate::tree::{Raw, Tree};

/// Texts of all roles, empty, prefixes of each other and multi-byte too.
const TEXTS: &[&str] =
    &["A", "B", "Phase", "stage", "", "é", "日本", "🚦", "a", "ab", "green", "Ärger", "b", "\u{0}"];

/// Texts alike but for case: that of a letter, of several, of a byte beside the
/// letters, of a letter that is none of the 26.
const CASED: &[&[&str]] = &[
    &["count", "COUNT", "Count", "counT"],
    &["a", "A", "ab", "aB", "Ab", "AB", "", "b"],
    &["z[", "z{", "Z[", "Z{", "[", "{", "z"],
    &["a@", "a`", "A@", "A`", "@", "`", "A"],
    &["é", "É", "eé", "eÉ", "Eé", "EÉ", "e"],
    &["k", "K", "\u{212a}", "ks", "KS", "k\u{17f}", "Ks"],
];

/// Expressions that hold others.
const NESTING: &[u8] = &[10, 11, 12, 13, 14, 16, 17, 18, 19, 20, 21, 22, 23, 24, 25, 26];

/// Both sheets of a generated pair.
pub struct Pair {
    pub statement: Tree,
    pub schema: Tree,
}

/// A pair whose names come from one small choice of texts.
pub fn pair(rng: &mut Rng) -> Pair {
    pair_of(TEXTS, rng)
}

/// A pair whose names are alike but for case, with some functions more and a
/// clause of calls, where there is room.
pub fn pair_in_cases(rng: &mut Rng) -> Pair {
    let texts = *rng.pick(CASED);
    let Pair { mut statement, mut schema } = pair_of(texts, rng);
    let calls: Vec<Tree> = (0..rng.below(4)).map(|_| call(texts, rng)).collect();
    insert(&mut statement, Tree::new(75, calls.len() as u32, calls), rng);
    for _ in 0..rng.below(5) {
        let name = *rng.pick(texts);
        let function = Tree::new(104, rng.below(6) as u32, vec![Tree::name(name)]);
        insert(&mut schema, function, rng);
    }
    Pair { statement, schema }
}

/// A call of one of these functions, of up to two arguments.
fn call(texts: &[&str], rng: &mut Rng) -> Tree {
    let name = *rng.pick(texts);
    let arguments = vec![Tree::leaf(1, 0); rng.below(3)];
    let count = arguments.len() as u32;
    Tree::new(16, count, [Tree::name(name)].into_iter().chain(arguments).collect())
}

/// Puts a tree among those that a sheet's token 0 holds, where there is room.
fn insert(sheet: &mut Tree, tree: Tree, rng: &mut Rng) {
    if sheet.tokens() + tree.tokens() <= MAX_TOKENS as usize {
        sheet.kids.insert(rng.below(sheet.kids.len() + 1), tree);
        sheet.value = sheet.kids.len() as u32;
    }
}

fn pair_of(from: &[&str], rng: &mut Rng) -> Pair {
    let most = [2, 3, 4, 6, 10, 20][rng.weighted(&[2, 4, 4, 3, 2, 1])];
    let texts: Vec<&str> = (0..most).map(|_| *rng.pick(from)).collect();
    let size = [0, 12, 40, 120, 400, 2_000][rng.weighted(&[20, 80, 160, 100, 20, 1])];
    // One draw for both: with another, all that follows of a seed would change.
    let drawn = rng.below(100);
    let (deep, starts) = (drawn < 12, [1, 3, 12, 90][drawn % 4]);
    let mut grower = Grower { rng, texts: &texts, starts, left: size };
    let statement = grower.sheet(Class::Statement, size, deep);
    let mut schema = grower.sheet(Class::Schema, 10 + size, false);
    drop_repeats(&mut schema);
    Pair { statement, schema }
}

/// A schema's declarations without those that 10 to 13 refuse.
fn drop_repeats(schema: &mut Tree) {
    let mut seen: Vec<(u8, String)> = Vec::new();
    schema.kids.retain(|declared| {
        let name = (declared.kind, declared.kids[0].text.clone());
        match declared.kind {
            101..=103 if seen.contains(&name) => false,
            101..=103 => {
                seen.push(name);
                true
            }
            106 => declared.kids[0].text != declared.kids[1].text,
            _ => true,
        }
    });
    schema.value = schema.kids.len() as u32;
}

/// Where an expression stands, as far as it decides what is likely there.
#[derive(Clone, Copy, PartialEq)]
enum Place {
    Free,
    Properties,
    KeyValue,
}

struct Grower<'a> {
    rng: &'a mut Rng,
    texts: &'a [&'a str],
    /// How many starts most spans of a pair choose from.
    starts: usize,
    left: usize,
}

impl Grower<'_> {
    /// A whole sheet within the limit of tokens.
    fn sheet(&mut self, class: Class, size: usize, deep: bool) -> Tree {
        loop {
            self.left = size;
            let tree = self.grow(class, 0, Place::Free, deep);
            if tree.tokens() <= MAX_TOKENS as usize {
                return tree;
            }
        }
    }

    /// A tree for a place. On the spine one child goes on to the full depth.
    fn grow(&mut self, class: Class, depth: u32, place: Place, spine: bool) -> Tree {
        self.left = self.left.saturating_sub(1);
        let kind = self.kind(class, depth, place, spine);
        let rule = rule_of(kind).expect("a kind of the table");
        if kind == 50 {
            let text = *self.rng.pick(self.texts);
            return Tree::name(text);
        }
        let value = self.value(rule, depth, spine);
        let classes = held(rule, value);
        let deepening: Vec<usize> = (0..classes.len()).filter(|i| deepens(classes[*i])).collect();
        let on_spine = (spine && !deepening.is_empty()).then(|| *self.rng.pick(&deepening));
        let mut kids: Vec<Tree> = Vec::new();
        for (i, class) in classes.into_iter().enumerate() {
            let mut kid = self.grow(class, depth + 1, place_in(kind), on_spine == Some(i));
            if class == Class::End {
                kid.value = kids[i - 1].value.saturating_add(self.rng.below(30) as u32);
            }
            kids.push(kid);
        }
        Tree::new(kind, value, kids)
    }

    fn kind(&mut self, class: Class, depth: u32, place: Place, spine: bool) -> u8 {
        if class != Class::Expr {
            return class.kinds()[self.rng.weighted(weights(class))];
        }
        if place == Place::Properties && self.rng.chance(75) {
            return 14;
        }
        if spine && depth < MAX_DEPTH {
            return *self.rng.pick(NESTING);
        }
        let leaf = match place {
            Place::KeyValue => 60,
            _ => 25,
        };
        if self.left == 0 || depth >= MAX_DEPTH || self.rng.chance(leaf) {
            return 1 + self.rng.weighted(&[2, 2, 4, 3, 3, 2, 1, 1, 1]) as u8;
        }
        if place == Place::KeyValue && self.rng.chance(50) {
            return 13;
        }
        *self.rng.pick(NESTING)
    }

    /// A value that 01 allows, with few children, and with one at least on
    /// the spine where the kind can have one.
    fn value(&mut self, rule: &Rule, depth: u32, spine: bool) -> u32 {
        if rule.kind == 51 {
            let near_the_limit = self.rng.chance(2);
            return if near_the_limit { u32::MAX - 20 } else { self.rng.below(self.starts) as u32 };
        }
        for _ in 0..30 {
            let value = self.any_value(rule, depth);
            if !spine || held(rule, value).into_iter().any(deepens) {
                return value;
            }
        }
        self.any_value(rule, depth)
    }

    fn any_value(&mut self, rule: &Rule, depth: u32) -> u32 {
        let counted: Vec<&Slot> = rule.holds.iter().filter(|s| s.times != Times::Once).collect();
        if counted.is_empty() {
            return self.free_value(rule);
        }
        let mut value = 0;
        for slot in counted {
            value += slot.times.weight() * self.count(rule.kind, slot, depth);
        }
        value
    }

    /// How often a group repeats; never where its tokens would be too deep.
    fn count(&mut self, kind: u8, slot: &Slot, depth: u32) -> u32 {
        if depth + 1 + slot.of.iter().map(|class| room(*class)).max().unwrap_or(0) > MAX_DEPTH {
            return 0;
        }
        let element = kind == 62 || kind == 63;
        let weights: &[usize] = match slot.times {
            Times::Bit0 if element => &[3, 7],
            Times::Half if element => &[2, 6, 3, 2],
            Times::Bit0 | Times::Bit1 => &[1, 1],
            _ if kind == 100 => &[1, 1, 2, 3, 3, 3, 3, 3, 2, 2, 1, 1, 1, 1],
            _ if kind == 101 || kind == 102 => &[1, 2, 4, 4, 3, 2, 1],
            _ if kind == 111 => &[2, 6, 3, 1],
            _ if self.left == 0 => &[3, 1],
            _ if self.left > 600 => return self.rng.below(40) as u32,
            _ if kind == 90 => &[1, 4, 4, 3, 2, 1],
            _ => &[2, 5, 4, 2, 1],
        };
        self.rng.weighted(weights) as u32
    }

    /// Values that count no children.
    fn free_value(&mut self, rule: &Rule) -> u32 {
        match (rule.kind, rule.values) {
            (104 | 105, _) if self.rng.chance(2) => u32::MAX - self.rng.below(3) as u32,
            (104 | 105, _) => self.rng.below(8) as u32,
            (120..=128, _) if self.rng.chance(1) => 63,
            (120..=128, _) => self.rng.weighted(&[6, 2, 1]) as u32,
            (_, Values::UpTo(most)) => self.rng.below(most as usize + 1) as u32,
            _ => 0,
        }
    }
}

/// How likely each kind of a class is, in the order of `Class::kinds`.
fn weights(class: Class) -> &'static [usize] {
    match class {
        Class::Clause => &[2, 4, 6, 2, 1, 1, 1, 3, 1, 1, 2],
        Class::SetItem => &[1, 1, 2],
        Class::Element => &[3, 2],
        Class::Declaration => &[35, 25, 10, 12, 8, 14],
        Class::LabelItem => &[3, 1],
        Class::RelTypeItem => &[4, 2, 2, 2],
        _ => &[1; 9][..class.kinds().len()],
    }
}

/// The places that a token of that value holds, in order.
pub fn held(rule: &Rule, value: u32) -> Vec<Class> {
    let groups = rule
        .holds
        .iter()
        .flat_map(|slot| (0..slot.times.count(value)).flat_map(|_| slot.of.iter().copied()));
    groups.collect()
}

/// How many levels below itself a token of that class needs at least.
fn room(class: Class) -> u32 {
    match class {
        Class::Clause | Class::Element | Class::MapItem => 1,
        _ => 0,
    }
}

fn deepens(class: Class) -> bool {
    use Class::*;
    matches!(class, Clause | SetItem | RemoveItem | Pattern | Part | Element | Expr | MapItem)
}

fn place_in(kind: u8) -> Place {
    match kind {
        62 | 63 => Place::Properties,
        14 => Place::KeyValue,
        _ => Place::Free,
    }
}

/// Kinds of sheets that go together: half of the time all are of the first, else
/// each is of either.
pub fn kinds<const N: usize>(rng: &mut Rng) -> [SheetKind; N] {
    let mixed = rng.chance(50);
    [0; N].map(|_| if mixed { *rng.pick(&SheetKind::ALL) } else { SheetKind::First })
}

/// The sheet of a tree: a text may get several numbers, names stand in any
/// order, and some are used by no token.
pub fn numbered(tree: &Tree, rng: &mut Rng) -> Raw {
    let mut raw = Raw::default();
    let again = [0, 30, 100][rng.below(3)];
    tree.write(&mut raw, &mut |names, text| {
        let equal: Vec<usize> = (0..names.len()).filter(|i| names[*i] == text.as_bytes()).collect();
        let bytes: usize = names.iter().map(Vec::len).sum();
        let room = names.len() < MAX_NAMES as usize / 2 && bytes < MAX_TEXT as usize / 2;
        if !equal.is_empty() && (!room || !rng.chance(again)) {
            return *rng.pick(&equal);
        }
        names.push(text.as_bytes().to_vec());
        names.len() - 1
    });
    for _ in 0..rng.below(3) {
        raw.names.push(rng.pick(TEXTS).as_bytes().to_vec());
    }
    debug_assert!(raw.names.concat().len() <= MAX_TEXT as usize);
    shuffle_names(&mut raw, rng);
    raw
}

fn shuffle_names(raw: &mut Raw, rng: &mut Rng) {
    let mut order: Vec<usize> = (0..raw.names.len()).collect();
    for i in (1..order.len()).rev() {
        order.swap(i, rng.below(i + 1));
    }
    let mut names = vec![Vec::new(); order.len()];
    for (old, new) in order.iter().enumerate() {
        names[*new] = std::mem::take(&mut raw.names[old]);
    }
    raw.names = names;
    for (kind, value) in &mut raw.tokens {
        if *kind == 50 {
            *value = order[*value as usize] as u32;
        }
    }
}
