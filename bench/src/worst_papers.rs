//! The worst papers, each with what it strains. Where nothing else is said
//! names are 31 bytes long and alike in the first 26, so that comparisons go
//! far; where there are a thousand of them no longer ones have room.

use oracle::build::{
    apart, call, clause, declared as declaration, element, element_at, map, names, pattern,
    property, schema, statement, tuple as tuple_of,
};
use oracle::collide;
use oracle::sheet::{MAX_TEXT, MAX_TOKENS};
use oracle::tree::{Raw, Tree};

use crate::input::SEED;
use crate::papers::paper;
use crate::schemas::Schema;

type Sheets = [Tree; 2];

/// A name of 31 bytes: 26 that all share, and the number.
fn alike(number: usize) -> String {
    format!("junction_of_a_timing_plan_{number:05}")
}

/// Names that a schema declares have even numbers, those that none declares
/// odd ones: each stands between two that differ from it in a digit or two.
pub fn declared_name(i: usize) -> String {
    alike(2 * i)
}

fn other_name(i: usize) -> String {
    alike(2 * i + 1)
}

fn int() -> Tree {
    Tree::leaf(3, 0)
}

/// So many keys with a number as value, of names that repeat after `texts`.
fn keys(count: usize, texts: usize, name: fn(usize) -> String) -> Tree {
    map((0..count).map(|i| (name(i % texts), int())))
}

fn node(labels: impl IntoIterator<Item = String>, properties: Option<Tree>) -> Tree {
    element(62, names(labels), properties)
}

/// A statement of one clause of that kind.
fn one_clause(kind: u8, elements: Vec<Tree>) -> Tree {
    statement(vec![clause(kind, elements)])
}

fn label(name: &str, items: Vec<Tree>) -> Tree {
    declaration(101, name, items)
}

fn labels(names: impl IntoIterator<Item = String>) -> Tree {
    schema(names.into_iter().map(|name| label(&name, Vec::new())).collect())
}

/// A label of 1,300 properties, which have 1,000 names.
fn of_properties() -> Tree {
    let of_int = |i: usize| property(&declared_name(1 + i % 1_000), Tree::leaf(121, 0));
    label(&declared_name(0), (0..1_300).map(of_int).collect())
}

/// A label with a tuple of 4,000 names, these and a last one that no element
/// has as a key.
fn of_tuple(name: fn(usize) -> String) -> Tree {
    let names = (0..3_999).map(name).chain([other_name(0)]);
    schema(vec![label(&declared_name(0), vec![tuple_of(names)])])
}

/// A label with a tuple of one name that no element has as a key.
fn of_small_tuple() -> Tree {
    schema(vec![label("Plan", vec![tuple_of(["site"])])])
}

/// Every key is looked for in every label, and no label is found: 20,000
/// lookups that go through all 400 declarations.
pub fn undeclared() -> Sheets {
    let node = node((0..200).map(other_name), Some(keys(100, 100, other_name)));
    [one_clause(70, vec![node]), labels((0..400).map(declared_name))]
}

/// Every key is looked for in every label, and every label is found: 1.5
/// million lookups, half of the declarations each on the average. The keys
/// have the names of the labels: more than 1,024 names have no room.
pub fn declared() -> Sheets {
    let node = node((0..1_000).map(declared_name), Some(keys(1_500, 1_000, declared_name)));
    [one_clause(70, vec![node]), labels((0..1_000).map(declared_name))]
}

/// Every key is looked for 1,000 times among the properties of one label and
/// is not there. The Rust copies the 1,300 properties each time.
pub fn properties() -> Sheets {
    let labels = (0..1_000).map(|_| declared_name(0));
    let node = node(labels, Some(keys(1_500, 1_000, other_name)));
    [one_clause(70, vec![node]), schema(vec![of_properties()])]
}

/// A merged node whose keys are all names of the tuple but the last.
fn merged(count: usize, label: fn(usize) -> String) -> Sheets {
    let keys = keys(1_500, 1_000, declared_name);
    let node = node((0..count).map(label), Some(keys));
    [one_clause(72, vec![node]), of_tuple(|i| declared_name(i % 1_000))]
}

/// Of 1,000 labels the last is the one that has the tuple.
pub fn tuple() -> Sheets {
    merged(1_000, |i| declared_name(999 - i))
}

/// All 200 labels are the one that has the tuple, which is tried, and by the
/// Rust copied, 200 times.
pub fn tuples() -> Sheets {
    merged(200, |_| declared_name(0))
}

/// Every node is held against every Apart: both of its labels are the first
/// name of one, and none has the two.
pub fn aparts() -> Sheets {
    let created = |i: usize| node([declared_name(i % 500), declared_name(500)], None);
    let of = |i: usize| {
        let first = if i.is_multiple_of(2) { declared_name(500) } else { declared_name(i % 500) };
        apart(&first, &other_name(i % 500))
    };
    let statement = one_clause(71, (0..800).map(created).collect());
    [statement, schema((0..1_300).map(of).collect())]
}

/// Every call looks for its function among 2,000, of which two at a time
/// have one name, and does not find it.
pub fn calls() -> Sheets {
    let call = |i: usize| Tree::new(16, 0, names([other_name(i % 1_000)]));
    let function = |i: usize| Tree::new(104, 0, names([declared_name(i % 1_000)]));
    let returned = Tree::new(75, 2_000, (0..2_000).map(call).collect());
    [statement(vec![returned]), schema((0..2_000).map(function).collect())]
}

/// A map of 35 keys, the first of which has such a map again: what follows a
/// map is found by going over all that is in it.
pub fn maps() -> Sheets {
    let inner = (0..55).fold(int(), |inner, _| {
        let first = (other_name(0), inner);
        map([first].into_iter().chain((1..35).map(|i| (other_name(i), int()))))
    });
    let node = node([declared_name(0)], Some(inner));
    [one_clause(70, vec![node]), labels([declared_name(0)])]
}

/// As many breaches as the program prints, each with a message, over as many
/// labels as there are names, to read and to go through for each.
pub fn breaches() -> Sheets {
    let nodes = (0..512).map(|i| node([other_name(i)], None)).collect();
    [one_clause(70, nodes), labels((0..1_024).map(declared_name))]
}

/// A merged node with that map, and a label that does not back it.
fn unbacked(map: Tree) -> Sheets {
    [one_clause(72, vec![node(["Plan".into()], Some(map))]), of_small_tuple()]
}

/// The last message has 1,000 keys in rising order, of 2,000 that fall.
pub fn falling() -> Sheets {
    unbacked(keys(2_000, 1_000, |i| declared_name(999 - i)))
}

/// The sheets with every name of the statement that begins with a k made so
/// many bytes long, all of them k.
fn lengthened(sheets: Sheets, length: usize) -> [Raw; 2] {
    let [mut statement, schema] = sheets.map(|sheet| sheet.raw());
    for name in statement.names.iter_mut().filter(|name| name.starts_with(b"k")) {
        *name = vec![b'k'; length];
    }
    [statement, schema]
}

/// The last message has one key of 32,000 bytes, which is found again 1,999
/// times.
pub fn repeated() -> [Raw; 2] {
    lengthened(unbacked(keys(2_000, 1, |_| "k".into())), 32_000)
}

/// The same with two names in turn, so that the numbers differ at each key
/// and the texts do not.
pub fn twins() -> [Raw; 2] {
    lengthened(unbacked(keys(2_000, 2, |i| format!("k{i}"))), 16_000)
}

/// Half of these names are declared, the others stand in the statement.
fn halves(mut found: Vec<String>) -> Sheets {
    let others = found.split_off(found.len() / 2);
    [one_clause(70, vec![node(others, None)]), labels(found)]
}

/// No hash parts these names into chains: each is held against all that are
/// declared.
pub fn collide() -> Sheets {
    halves(collide::collide(2_000))
}

/// Nor does the whole hash tell them apart: their texts are compared.
pub fn collide_wholly() -> Sheets {
    halves(collide::collide_wholly(2_000))
}

/// And the texts are alike up to the last eight bytes.
pub fn collide_late() -> Sheets {
    halves(collide::collide_late(2_000))
}

/// Names of one hash that differ in the case of letters, which a lookup of
/// functions takes for one, or in bytes beside the letters, which it does not:
/// of every two the first is declared, with a parameter, and the second called,
/// with none.
pub fn case_calls() -> Sheets {
    let found = collide::collide_in_case(2_000);
    let every_other = |first: usize| found.iter().skip(first).step_by(2);
    let calls: Vec<Tree> = every_other(1).map(|name| call(name)).collect();
    let functions = every_other(0).map(|name| Tree::new(104, 2, names([name])));
    let returned = Tree::new(75, calls.len() as u32, calls);
    [statement(vec![returned]), schema(functions.collect())]
}

/// One function declared over and over, under two numbers of one long text, and
/// called by a name that differs from it in its last letter's case.
pub fn again() -> [Raw; 2] {
    let declared = ["k0", "k1"];
    let functions = (0..2_047).map(|i| Tree::new(104, 2, names([declared[i % 2]]))).collect();
    let calls: Vec<Tree> = (0..2_000).map(|_| call("k")).collect();
    let returned = Tree::new(75, calls.len() as u32, calls);
    let sheets = [statement(vec![returned]), schema(functions)];
    let [mut statement, mut schema] = sheets.map(|sheet| sheet.raw());
    schema.names.fill(vec![b'k'; 16_000]);
    statement.names = vec![[vec![b'k'; 15_999], vec![b'K']].concat()];
    [statement, schema]
}

/// An ordinary paper that draws nothing, with the functions that it calls in
/// capitals.
pub fn any_case() -> Sheets {
    let (declared, schema) = Schema::new(500);
    [in_capitals(paper(&declared, SEED, 4_000, false)), schema]
}

fn in_capitals(mut tree: Tree) -> Tree {
    if tree.kind == 16 {
        tree.kids[0].text.make_ascii_uppercase();
    }
    tree.kids = tree.kids.into_iter().map(in_capitals).collect();
    tree
}

/// Every element goes through the properties of its label for one key.
pub fn single() -> Sheets {
    let one = |i: usize| node([declared_name(0)], Some(map([(other_name(i), int())])));
    [one_clause(70, (0..500).map(one).collect()), schema(vec![of_properties()])]
}

/// The same for four keys, and two labels, the first without properties.
pub fn double() -> Sheets {
    let bare = declared_name(1_001);
    let two = |i: usize| {
        let keys = (0..4).map(|k| (other_name(i % 5 + k), int()));
        node([bare.clone(), declared_name(0)], Some(map(keys)))
    };
    let declarations = vec![label(&bare, Vec::new()), of_properties()];
    [one_clause(70, (0..290).map(two).collect()), schema(declarations)]
}

/// A node in a comprehension in the map of a node, as deep as 64 allows: the
/// innermost map stands within eleven others.
pub fn nested() -> Sheets {
    let of_map = |map: Tree| node([declared_name(0)], Some(map));
    let innermost = of_map(keys(1_980, 1_000, other_name));
    let outermost = (0..11).fold(innermost, |inner, _| {
        let comprehension = Tree::new(23, 0, vec![pattern(vec![inner]), Tree::leaf(6, 0)]);
        of_map(map([(other_name(0), comprehension)]))
    });
    [one_clause(70, vec![outermost]), labels([declared_name(0)])]
}

/// Every node goes through the tuple up to its last name: all others are the
/// one key that it has.
pub fn merges() -> Sheets {
    let one = |_: usize| node([declared_name(0)], Some(keys(1, 1, |_| declared_name(1))));
    [one_clause(72, (0..500).map(one).collect()), of_tuple(|_| declared_name(1))]
}

/// Each of a node's two labels is in half of the Aparts, and none has both.
/// There is no breach.
pub fn near() -> Sheets {
    let [one, other] = [0, 1].map(declared_name);
    let created = || node([one.clone(), other.clone()], None);
    let of = |i: usize| match i % 2 {
        0 => apart(&one, &other_name(i % 1_000)),
        _ => apart(&other_name(i % 1_000), &other),
    };
    let declarations = [&one, &other].map(|name| label(name, Vec::new()));
    let declarations = declarations.into_iter().chain((0..1_300).map(of)).collect();
    [one_clause(71, (0..800).map(|_| created()).collect()), schema(declarations)]
}

/// Every Apart is held against one node of very many labels, of which it has
/// the first name and not the second.
pub fn crowd() -> Sheets {
    let node = node((0..4_000).map(|i| declared_name(i % 1_000)), None);
    let of = |i: usize| apart(&declared_name(i % 1_000), &other_name(0));
    [one_clause(71, vec![node]), schema((0..1_300).map(of).collect())]
}

/// The last message names every label of the node: over 100 million bytes.
pub fn long() -> [Raw; 2] {
    let node = node((0..4_086).map(|_| "k".into()), Some(keys(1, 1, |_| "k".into())));
    lengthened([one_clause(70, vec![node]), schema(Vec::new())], MAX_TEXT as usize)
}

/// A node of one label so many times, from that start on. Nothing declares it,
/// and it is short, since the Rust writes it into a message each time.
fn unknown_at(start: u32, labels: usize) -> Tree {
    element_at([start, start.saturating_add(9)], 62, names(vec!["Z"; labels]), None)
}

/// As many such nodes as a sheet has room for, the starts by their numbers.
fn unknown(labels: usize, start: fn(u32) -> u32) -> Sheets {
    let count = (MAX_TOKENS - 4) / (labels as u32 + 3);
    let nodes = (0..count).map(|i| unknown_at(start(i), labels)).collect();
    [one_clause(70, nodes), schema(Vec::new())]
}

/// Starts all over a u32. The factor is odd, so no two numbers share one.
fn scatter(i: u32) -> u32 {
    i.wrapping_mul(2_654_435_761)
}

/// Half of the starts are 0, those of calls, and the nodes between them fall:
/// each node goes behind all that follow it. No further one has room.
pub fn in_turn() -> Sheets {
    let expression = |i: u32| match i % 2 {
        0 => Tree::new(16, 0, names(["z"])),
        _ => Tree::new(22, 0, vec![pattern(vec![unknown_at(909 - i, 1)])]),
    };
    let returned = Tree::new(75, 909, (0..909).map(expression).collect());
    [statement(vec![returned]), schema(Vec::new())]
}

/// Every item has another start.
pub fn scattered() -> Sheets {
    unknown(1, scatter)
}

/// Four items at a time have one start.
pub fn scattered_few() -> Sheets {
    unknown(4, scatter)
}

/// As many items as two nodes can have, which change places.
pub fn most_twice() -> Sheets {
    unknown(2_043, |i| [9, 0][i as usize])
}

/// As many items as there may be, all of one start: none moves.
pub fn most_items() -> Sheets {
    unknown(4_089, |_| 0)
}

#[cfg(test)]
mod tests {
    use super::*;
    use oracle::compare::judge;
    use std::collections::{BTreeMap, BTreeSet};

    #[test]
    fn papers_for_the_margin_list_are_full() {
        let papers = [in_turn(), scattered(), scattered_few(), most_twice(), most_items()];
        let tokens = papers.map(|[statement, _]| statement.tokens());
        assert_eq!(tokens, [4_090, 4_096, 4_092, 4_096, 4_096]);
    }

    #[test]
    fn scattered_starts_differ() {
        let starts: BTreeSet<u32> = (0..1_023).map(scatter).collect();
        assert_eq!(starts.len(), 1_023);
    }

    /// Codes of the items, and how many there are of each.
    fn codes(sheets: Sheets) -> BTreeMap<u32, usize> {
        let [statement, schema] = sheets.map(|sheet| sheet.raw().bytes());
        let judged = judge(&statement, &schema).expect("the Rust agrees with 02");
        let mut codes = BTreeMap::new();
        for item in judged.expect("both sheets are accepted") {
            *codes.entry(item.code).or_default() += 1;
        }
        codes
    }

    #[test]
    fn calls_in_cases_are_found_and_not_found() {
        let codes = codes(case_calls());
        assert_eq!(codes.values().sum::<usize>(), 1_000);
        assert!(codes[&3006] > 100 && codes[&3007] > 100, "{codes:?}");
    }

    #[test]
    fn calls_in_capitals_are_found() {
        assert_eq!(codes(any_case()), BTreeMap::new());
        let [statement, _] = any_case();
        let names: Vec<Vec<u8>> = statement.raw().names;
        assert!(names.iter().any(|name| name.starts_with(b"TOSECONDS")));
    }

    #[test]
    fn names_are_alike_in_26_of_31_bytes() {
        let (one, other) = (alike(0), alike(99_999));
        assert_eq!((one.len(), &one[..26]), (31, &other[..26]));
    }

    #[test]
    fn twins_have_one_text_and_two_numbers() {
        let [statement, _] = twins();
        let long: Vec<&Vec<u8>> = statement.names.iter().filter(|n| n.len() == 16_000).collect();
        assert!(long.len() == 2 && long[0] == long[1]);
    }
}
