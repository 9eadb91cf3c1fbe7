//! Pairs of the shapes that cost much, or that go wrong where names get
//! numbers and are looked up by them: many labels, keys, tuples, Aparts,
//! functions and endpoints, in any order and with repeats, of names that are
//! alike, in all but case too, share a hash, are long or empty; and spans in any
//! order, for the margin list. Most are scaled down.

use std::sync::OnceLock;

use crate::build::{
    apart, call, clause, declared, element, element_at, map, names, parameter, pattern, property,
    schema, side, statement, tuple,
};
use crate::collide::{collide, collide_in_case, collide_wholly};
use crate::damage::declaration;
use crate::generate::{kinds, numbered};
use crate::rng::Rng;
use crate::run::Case;
use crate::sheet::{MAX_DEPTH, Refusal};
use crate::tree::{Raw, Tree};

/// Tokens of a sheet; declarations that 10 to 13 refuse have room above.
const MOST_TOKENS: usize = 4_050;

/// Texts up to which some may get several numbers.
const NUMBERED: usize = 480;

/// How large a pair may be.
#[derive(Clone, Copy, Debug, PartialEq, Eq)]
pub struct Scale {
    /// What the numbers of labels, keys, declarations and so on multiply to.
    product: usize,
    texts: &'static [usize],
}

pub const SMALL: Scale = Scale { product: 400, texts: &[2, 3, 5, 9, 20, 40] };
pub const FULL: Scale = Scale { product: 1_000_000, texts: &[20, 200, NUMBERED, 1_000] };

/// A pair of one of the shapes; one in seven has a schema that 10 to 13 refuse,
/// where there is something to repeat.
pub fn case(rng: &mut Rng, scale: Scale) -> Case {
    let count = *rng.pick(scale.texts);
    let texts = texts(count, rng);
    let (rare, texts) = texts.split_last().expect("two texts at least");
    let mut maker = Maker { rng, texts, rare, product: scale.product };
    let [statement, mut schema] = match maker.rng.below(7) {
        0 => maker.elements(),
        1 => maker.merges(),
        2 => maker.aparts(),
        3 => maker.calls(),
        4 => maker.nested(),
        5 => maker.margins(),
        _ => maker.store(),
    };
    let refused = if rng.below(7) == 0 { declared_again(&mut schema, rng) } else { None };
    let [statement, schema] = [statement, schema].map(|tree| sheet(&tree, count, rng));
    let [of_statement, of_schema] = kinds(rng);
    let statement = statement.in_kind(of_statement).bytes();
    let schema = schema.in_kind(of_schema).bytes();
    Case { statement, schema, expected: Some(refused.map_or(Ok(()), Err)) }
}

/// The sheet of a tree. Where there are too many texts to give some of them
/// several numbers, each has one.
fn sheet(tree: &Tree, texts: usize, rng: &mut Rng) -> Raw {
    if texts <= NUMBERED { numbered(tree, rng) } else { tree.raw() }
}

/// At most so many texts of one family, in falling order or shifted, an empty
/// one among them now and then.
fn texts(count: usize, rng: &mut Rng) -> Vec<String> {
    let mut texts = family(rng.below(8), count);
    if rng.chance(50) {
        texts.reverse();
    }
    let start = rng.below(texts.len());
    texts.rotate_left(start);
    if rng.chance(30) {
        texts[0].clear();
    }
    texts
}

/// Short names, names alike in 26 of 31 bytes, those of one chain, of one hash,
/// and of one but for case, prefixes of each other, a few long ones that differ
/// at the end, and short ones in either case.
fn family(which: usize, count: usize) -> Vec<String> {
    match which {
        0 => (0..count).map(|i| format!("n{i}")).collect(),
        1 => (0..count).map(|i| format!("junction_of_a_timing_plan_{i:05}")).collect(),
        2..=4 => found(which - 2)[..count].to_vec(),
        5 => (1..=count.min(60)).map(|i| "p".repeat(i)).collect(),
        6 => (0..count.min(6)).map(|i| format!("{}{i}", "long".repeat(250))).collect(),
        _ => (0..count).map(|i| format!("{}{}", ["n", "N"][i % 2], i / 2)).collect(),
    }
}

/// Names that collide, searched for once: of one chain, of one hash, or of one
/// hash and alike but for case.
fn found(which: usize) -> &'static [String] {
    static FOUND: [OnceLock<Vec<String>>; 3] = [const { OnceLock::new() }; 3];
    let search = [collide, collide_wholly, collide_in_case][which];
    FOUND[which].get_or_init(|| search(1_000))
}

/// Puts a declaration that repeats an earlier one, or an Apart of equal
/// texts, among the others, and more of them at the end: the refusal, if there
/// was a declaration to repeat.
fn declared_again(schema: &mut Tree, rng: &mut Rng) -> Option<Refusal> {
    let repeatable = |at: &usize| matches!(schema.kids[*at].kind, 101..=103 | 106);
    let end = schema.kids.len();
    let declared: Vec<usize> = (0..end).filter(repeatable).collect();
    let first = if declared.is_empty() { return None } else { *rng.pick(&declared) };
    let kind = schema.kids[first].kind;
    let text = schema.kids[first].kids[0].text.clone();
    let equal = || apart(&text, &text);
    let again = || if kind == 106 { equal() } else { declaration(kind, &text) };
    schema.kids.extend((0..rng.below(3)).map(|_| again()));
    schema.kids.extend((0..rng.below(3)).map(|_| equal()));
    let at = first + 1 + rng.below(end - first);
    schema.kids.insert(at, again());
    schema.value = schema.kids.len() as u32;
    let number = if kind == 106 { 13 } else { u32::from(kind) - 91 };
    let before: usize = schema.kids[..at].iter().map(Tree::tokens).sum();
    Some(Refusal { number, sheet: 2, place: 1 + before as u32 })
}

struct Maker<'a> {
    rng: &'a mut Rng,
    texts: &'a [String],
    /// A text beside those, which stands last where it stands: what is many is
    /// gone through up to its end before it decides.
    rare: &'a str,
    product: usize,
}

impl<'a> Maker<'a> {
    /// Numbers from 1 to each of these, the product of which is within the
    /// scale. Any of them may be drawn first.
    fn sizes<const N: usize>(&mut self, most: [usize; N]) -> [usize; N] {
        let mut left = self.product;
        let mut sizes = [1; N];
        let first = self.rng.below(N);
        for i in (first..N).chain(0..first) {
            let most = most[i].min(left);
            sizes[i] = match self.rng.below(3) {
                0 => most,
                1 => 1 + self.rng.below(most.min(4)),
                _ => 1 + self.rng.below(most),
            };
            left /= sizes[i];
        }
        sizes
    }

    /// Up to so many trees, as long as a sheet has room for them.
    fn fitting(&mut self, count: usize, make: impl Fn(&mut Self, usize) -> Tree) -> Vec<Tree> {
        let mut made = Vec::new();
        let mut left = MOST_TOKENS - 1;
        for i in 0..count {
            let tree = make(self, i);
            let Some(less) = left.checked_sub(tree.tokens()) else { break };
            left = less;
            made.push(tree);
        }
        made
    }

    fn text(&mut self) -> &'a str {
        self.rng.pick(self.texts).as_str()
    }

    /// So many numbers below `bound`: rising, falling, one over and over, two
    /// in turn, or at random.
    fn numbers(&mut self, bound: usize, count: usize) -> Vec<usize> {
        let (way, start) = (self.rng.below(5), self.rng.below(bound));
        let at = |i: usize| match way {
            0 => start + i,
            1 => start + i * (bound - 1),
            2 => start,
            3 => start + i % 2,
            _ => self.rng.below(bound),
        };
        (0..count).map(at).map(|at| at % bound).collect()
    }

    /// So many of the texts, in one of these ways.
    fn series_of(&mut self, texts: &'a [String], count: usize) -> Vec<&'a str> {
        let numbers = self.numbers(texts.len(), count);
        numbers.into_iter().map(|at| texts[at].as_str()).collect()
    }

    fn series(&mut self, count: usize) -> Vec<&'a str> {
        self.series_of(self.texts, count)
    }

    /// A series, and then the rare text or not.
    fn series_to_rare(&mut self, count: usize) -> Vec<&'a str> {
        let series = self.series(count);
        self.then_rare(series)
    }

    fn then_rare(&mut self, mut series: Vec<&'a str>) -> Vec<&'a str> {
        if self.rng.chance(50) {
            series.push(self.rare);
        }
        series
    }

    /// A literal or a variable, in a list now and then.
    fn value(&mut self) -> Tree {
        let leaf = Tree::leaf(1 + self.rng.below(6) as u8, 0);
        if self.rng.chance(15) { Tree::new(13, 1, vec![leaf]) } else { leaf }
    }

    /// Keys, each with a value.
    fn pairs(&mut self, keys: Vec<&'a str>) -> Vec<(&'a str, Tree)> {
        keys.into_iter().map(|key| (key, self.value())).collect()
    }

    fn map(&mut self, keys: Vec<&'a str>) -> Tree {
        map(self.pairs(keys))
    }

    /// Properties of any type.
    fn properties(&mut self, names: Vec<&'a str>) -> Vec<Tree> {
        let ty = |rng: &mut Rng| Tree::leaf(120 + rng.below(9) as u8, rng.below(2) as u32);
        names.into_iter().map(|name| property(name, ty(self.rng))).collect()
    }

    /// So many properties, or none.
    fn some_properties(&mut self, count: usize) -> Vec<Tree> {
        let names = if self.rng.chance(30) { Vec::new() } else { self.series(count) };
        self.properties(names)
    }

    /// So many Labels or RelTypes, each of another name.
    fn owners(
        &mut self,
        kind: u8,
        count: usize,
        items: impl Fn(&mut Self) -> Vec<Tree>,
    ) -> Vec<Tree> {
        let texts = self.texts;
        let owner = |maker: &mut Self, i: usize| declared(kind, &texts[i], items(maker));
        self.fitting(count.min(texts.len()), owner)
    }

    /// Elements of many labels and keys. A key is declared in some labels, of
    /// any type in each, and more than once in one; the rare one at the end of
    /// many properties, or in the rare label alone.
    fn elements(&mut self) -> [Tree; 2] {
        let [kind, declares] = *self.rng.pick(&[[62, 101], [63, 102]]);
        let most = [300, 1_200, 900, 1_000, 900];
        let [many, labels, keys, declarations, properties] = self.sizes(most);
        let alone = self.rng.chance(50);
        let last = declared(declares, self.rare, self.properties(vec![self.rare]));
        let mut owners = self.owners(declares, declarations, |maker| {
            let mut items = maker.some_properties(properties);
            let rare = if alone { Vec::new() } else { maker.then_rare(Vec::new()) };
            items.extend(maker.properties(rare));
            items
        });
        owners.push(last);
        let clauses = self.fitting(many, |maker, _| {
            let keys = maker.series_to_rare(keys);
            let labels = names(maker.series_to_rare(labels));
            let element = element(kind, labels, Some(maker.map(keys)));
            clause(*maker.rng.pick(&[70, 71, 72]), vec![element])
        });
        [statement(clauses), schema(owners)]
    }

    /// Merged elements of one series of keys, over tuples of many of them on
    /// several labels: the rare one decides, if the others do not.
    fn merges(&mut self) -> [Tree; 2] {
        let [kind, declares] = *self.rng.pick(&[[62, 101], [63, 102]]);
        let most = [300, 600, 900, 400, 30, 1_000];
        let [many, labels, keys, declarations, tuples, width] = self.sizes(most);
        let keys = self.series(keys);
        let at_random = self.rng.chance(30);
        let owners = self.owners(declares, declarations, |maker| {
            let tuples = tuples.min(MOST_TOKENS / (width + 2) - 1);
            let tuple_of = |_| {
                let start = maker.rng.below(keys.len());
                let of_keys = (start..start + width).map(|i| keys[i % keys.len()]).collect();
                let names = if at_random { maker.series(width) } else { of_keys };
                tuple(maker.then_rare(names))
            };
            (0..tuples).map(tuple_of).collect()
        });
        let clauses = self.fitting(many, |maker, _| {
            let keys = maker.then_rare(keys.clone());
            let labels = names(maker.series_to_rare(labels));
            clause(72, vec![element(kind, labels, Some(maker.map(keys)))])
        });
        [statement(clauses), schema(owners)]
    }

    /// Many Aparts, of which few have both names among those that nodes have:
    /// some, or none, or the last alone.
    fn aparts(&mut self) -> [Tree; 2] {
        let [count, many, labels] = self.sizes([1_300, 500, 1_000]);
        let (inside, outside) = self.texts.split_at(self.texts.len() / 2);
        let (inside, outside) =
            if inside.is_empty() { (outside, inside) } else { (inside, outside) };
        let both = *self.rng.pick(&[0, 0, 4]);
        let mut aparts = self.fitting(count, |maker, _| {
            let one = maker.rng.pick(inside).as_str();
            let others = if maker.rng.chance(both) { inside } else { outside };
            let other = if others.is_empty() { maker.rare } else { maker.rng.pick(others) };
            let other = if one == other { maker.rare } else { other };
            if maker.rng.chance(50) { apart(one, other) } else { apart(other, one) }
        });
        if self.rng.chance(50) {
            aparts.push(apart(self.rare, &inside[0]));
        }
        let clauses = self.fitting(many, |maker, _| {
            let labels = maker.series_of(inside, 1 + labels);
            let labels = names(maker.then_rare(labels));
            match maker.rng.below(4) {
                0 => Tree::new(77, 1, vec![Tree::new(82, labels.len() as u32, labels)]),
                way => clause(69 + way as u8, vec![element(62, labels, None)]),
            }
        });
        [statement(clauses), schema(aparts)]
    }

    /// Functions and procedures, many of one name, and calls of them.
    fn calls(&mut self) -> [Tree; 2] {
        let [count, many] = self.sizes([1_900, 900]);
        let callee = |rng: &mut Rng, name: &str| {
            let kind = *rng.pick(&[104, 105]);
            Tree::new(kind, rng.below(8) as u32, names([name]))
        };
        let mut callees = self.fitting(count, |maker, _| {
            let name = maker.text();
            callee(maker.rng, name)
        });
        callees.push(callee(self.rng, self.rare));
        let clauses = self.fitting(many, |maker, _| {
            let arguments: Vec<Tree> = (0..maker.rng.below(5)).map(|_| maker.value()).collect();
            let name = if maker.rng.chance(20) { maker.rare } else { maker.text() };
            let (count, name) = (arguments.len() as u32, names([name]));
            let called = name.into_iter().chain(arguments);
            if maker.rng.chance(50) {
                return Tree::new(75, 1, vec![Tree::new(16, count, called.collect())]);
            }
            let span = [Tree::leaf(51, 3), Tree::leaf(51, 4)];
            Tree::new(85, count, span.into_iter().chain(called).collect())
        });
        [statement(clauses), schema(callees)]
    }

    /// A node whose map holds maps, and nodes with maps again, the innermost
    /// of many keys, down to the full depth.
    fn nested(&mut self) -> [Tree; 2] {
        let [keys, declarations, properties] = self.sizes([1_200, 20, 300]);
        let owners = self.owners(101, declarations, |maker| maker.some_properties(properties));
        let keys = self.series_to_rare(keys);
        let mut inner = self.map(keys);
        let mut levels = IN_THE_INNERMOST;
        while levels + BELOW_A_KEY <= MAX_DEPTH - ABOVE_THE_MAP {
            let plain = self.rng.chance(40);
            levels += if plain { 1 } else { BELOW_A_KEY };
            let value = if plain { inner } else { self.nested_node(inner) };
            let count = self.rng.below(4);
            let beside = self.series(count);
            let mut pairs = self.pairs(beside);
            pairs.insert(self.rng.below(pairs.len() + 1), (self.text(), value));
            inner = map(pairs);
        }
        let node = element(62, names(self.series(2)), Some(inner));
        let kind = *self.rng.pick(&[70, 71, 72]);
        [statement(vec![clause(kind, vec![node])]), schema(owners)]
    }

    /// A predicate or a comprehension over a node of that map.
    fn nested_node(&mut self, map: Tree) -> Tree {
        let labels = self.rng.below(3);
        let pattern = pattern(vec![element(62, names(self.series(labels)), Some(map))]);
        match self.rng.below(2) {
            0 => Tree::new(22, 0, vec![pattern]),
            _ => Tree::new(23, 0, vec![pattern, self.value()]),
        }
    }

    /// Elements and calls in turn, so that every other start is 0: each element
    /// has a call for a property, or a clause of calls follows one of elements.
    fn margins(&mut self) -> [Tree; 2] {
        let [many, width, labels, declarations] = self.sizes([600, 500, 60, 20]);
        let width = width.min((MOST_TOKENS - ABOVE_AN_ELEMENT) / (labels + BESIDE_THE_LABELS));
        let owners = self.owners(101, declarations, |maker| vec![tuple(maker.series(1))]);
        let starts = self.starts(many * width);
        let nested = self.rng.chance(50);
        let clauses = self.fitting(many, |maker, i| {
            if !nested && i % 2 == 1 {
                return Tree::new(75, width as u32, (0..width).map(|_| maker.call()).collect());
            }
            let elements = starts[i * width..][..width].iter().map(|start| {
                let span = [*start, start.saturating_add(maker.rng.below(30) as u32)];
                let labels = names(maker.series(labels));
                let call = nested.then(|| map([(maker.text(), maker.call())]));
                element_at(span, 62, labels, call)
            });
            clause(70 + (i % 3) as u8, elements.collect())
        });
        [statement(clauses), schema(owners)]
    }

    /// So many starts, among few or many numbers: low, at the end of a u32, or
    /// all over it.
    fn starts(&mut self, count: usize) -> Vec<u32> {
        let bound = *self.rng.pick(&[1, 2, 7, count]);
        let last = u32::MAX - count as u32;
        let [first, step] = *self.rng.pick(&[[0, 1], [1, 1], [last, 1], [0, FAR]]);
        let start = |at: usize| (at as u32).wrapping_mul(step).wrapping_add(first);
        self.numbers(bound, count).into_iter().map(start).collect()
    }

    fn call(&mut self) -> Tree {
        call(self.text())
    }

    /// Labels, relationship types and parameters in turn, for the store.
    fn store(&mut self) -> [Tree; 2] {
        let [count, starts, ends] = self.sizes([2_000, 300, 300]);
        let texts = self.texts;
        let declarations = self.fitting(count.min(3 * texts.len()), |maker, i| {
            let name = &texts[i / 3];
            match i % 3 {
                0 => declared(101, name, maker.some_properties(2)),
                1 => declared(102, name, maker.sides(starts, ends)),
                _ => maker.parameter(name),
            }
        });
        let keys = self.series_to_rare(2);
        let node = element(62, names(self.series(3)), Some(self.map(keys)));
        [statement(vec![clause(72, vec![node])]), schema(declarations)]
    }

    /// Starts, ends and properties of a relationship type, in any order.
    fn sides(&mut self, starts: usize, ends: usize) -> Vec<Tree> {
        let mut items: Vec<Tree> = self.series(starts).iter().map(|name| side(112, name)).collect();
        items.extend(self.series(ends).iter().map(|name| side(113, name)));
        items.extend(self.some_properties(2));
        let start = self.rng.below(items.len());
        items.rotate_left(start);
        items
    }

    fn parameter(&mut self, name: &str) -> Tree {
        let mut parameter = parameter(name);
        if self.rng.chance(50) {
            parameter.kids.push(Tree::name(self.text()));
            parameter.value = 1;
        }
        parameter
    }
}

/// Levels of the innermost map: itself, its values, what a list holds.
const IN_THE_INNERMOST: u32 = 3;
/// Levels from a map to the next around it: predicate, Pattern, Part, Node, Map.
const BELOW_A_KEY: u32 = 5;
/// Levels above the outermost map: Statement, clause, Pattern, Part, Node.
const ABOVE_THE_MAP: u32 = 5;
/// From a start to the next where they are all over a u32: odd, so that no two
/// of them are equal.
const FAR: u32 = 0x9e37_79b1;
/// Tokens above a clause's elements: Statement, clause, Pattern, Part.
const ABOVE_AN_ELEMENT: usize = 4;
/// Tokens of an element of a call: itself, two Numbers, Map, key, Call, name.
const BESIDE_THE_LABELS: usize = 7;

#[cfg(test)]
mod tests {
    use super::*;
    use crate::run::Tally;

    fn tally(scale: Scale, pairs: u64) -> Tally {
        let mut tally = Tally::default();
        for number in 0..pairs {
            let made = case(&mut Rng::new(3, number), scale);
            let held = tally.take(&made).map(|_| ());
            assert!(held.is_ok(), "pair {number}: {held:?}");
        }
        tally
    }

    #[test]
    fn small_pairs_are_read_as_made_and_draw_every_code() {
        let tally = tally(SMALL, 2_000);
        for code in [3001, 3002, 3003, 3004, 3006, 3007, 3008, 3009, 4023] {
            assert!(tally.codes.contains_key(&code), "no E{code}");
        }
        for number in 10..=13 {
            assert!(tally.refusals.contains_key(&(number, 2)), "no {number}");
        }
    }

    #[test]
    fn full_pairs_are_read_as_made_and_come_near_the_limits() {
        let tally = tally(FULL, 40);
        assert!(tally.most_tokens > 3_900 && tally.most_items > 500);
    }
}
