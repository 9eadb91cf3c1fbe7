//! Pairs at and just past each limit of document 01, with what they draw.

use crate::build::{self, call, clause, declared, element, names as names_of};
use crate::collide::{collide, collide_in_case, collide_late, collide_wholly};
use crate::damage::marked_otherwise;
use crate::joins::{MOST, even_names, sized};
use crate::run::Case;
use crate::sheet::{
    MAX_DEPTH, MAX_NAMES, MAX_TEXT, MAX_TOKENS, Refusal, SheetKind, read_schema, read_statement,
};
use crate::tree::{Raw, Tree};

/// Every such pair.
pub fn cases() -> Vec<Case> {
    let of_sizes = SheetKind::ALL.into_iter().flat_map(at_sizes);
    let large = large().into_iter().enumerate();
    of_sizes.chain(large.map(|(i, case)| in_kinds(case, i))).collect()
}

/// Each size of a sheet of that kind, and one more.
fn at_sizes(kind: SheetKind) -> Vec<Case> {
    let statement = |raw: Raw, found| statement(raw.in_kind(kind), found);
    let mut cases = Vec::new();
    for over in [0, 1] {
        cases.push(statement(tokens(MAX_TOKENS + over), (over == 1).then_some((2, 0))));
        cases.push(statement(names(MAX_NAMES + over), (over == 1).then_some((2, 0))));
        cases.push(statement(text(MAX_TEXT + over), (over == 1).then_some((2, 0))));
        let deep = deep(MAX_DEPTH + over);
        cases.push(statement(deep, (over == 1).then_some((7, MAX_DEPTH + 1))));
        let lists = list_type(63 + over).in_kind(kind);
        cases.push(schema(lists, (over == 1).then_some((6, 5))));
    }
    let past = counts_past_the_tokens().into_iter();
    cases.extend(past.map(|(raw, found)| statement(raw, Some(found))));
    cases.extend(full_sheets(kind));
    cases
}

type Edit = fn(&mut Vec<u8>);

/// Faults of a full sheet with their refusals: a byte more, a byte less, the other
/// kind's mark, no token, a token too many.
const FAULTS: [(u32, Edit); 5] = [
    (3, |bytes| bytes.push(0)),
    (3, |bytes| bytes.truncate(bytes.len() - 1)),
    (3, |bytes| marked_otherwise(bytes)),
    (2, |bytes| count_tokens(bytes, 0)),
    (2, |bytes| count_tokens(bytes, MAX_TOKENS + 1)),
];

/// Sheets without names, which have the length of either kind; then statement and
/// schema with as much of all as there may be, and each with one of the faults.
fn full_sheets(kind: SheetKind) -> Vec<Case> {
    let [bare_statement, bare_schema] =
        [90, 100].map(|first| Tree::leaf(first, 0).raw().in_kind(kind).bytes());
    let [statement, schema] = [sized(MOST), full_schema()].map(|raw| raw.in_kind(kind).bytes());
    let bare = Case::accepted(bare_statement, bare_schema);
    let full = Case::accepted(statement, schema);
    let faulty = FAULTS.into_iter().flat_map(|(number, edit)| {
        let refused = |sheet| Some(Err(Refusal { number, sheet, place: 0 }));
        let mut of_statement = Case { expected: refused(1), ..full.clone() };
        edit(&mut of_statement.statement);
        let mut of_schema = Case { expected: refused(2), ..full.clone() };
        edit(&mut of_schema.schema);
        [of_statement, of_schema]
    });
    let faulty: Vec<Case> = faulty.collect();
    [bare, full].into_iter().chain(faulty).collect()
}

/// Another token count; the kind stays.
fn count_tokens(bytes: &mut [u8], count: u32) {
    let count = count | SheetKind::of(bytes).mark();
    bytes[..4].copy_from_slice(&count.to_le_bytes());
}

/// Aparts, three tokens each, of as many names and bytes of text as there may be.
fn full_schema() -> Raw {
    let texts = even_names(MAX_NAMES as usize, MAX_TEXT as usize);
    let name = |i: u32| (50, i % MAX_NAMES);
    let count = (MAX_TOKENS - 1) / 3;
    let aparts = (0..count).flat_map(|i| [(106, 0), name(i), name(i + 1)]);
    Raw::new([(100, count)].into_iter().chain(aparts).collect(), texts)
}

/// The pair in kinds that its number says. Where a sheet is refused, as it is by
/// a changed rule, the pair stays as it was made, and the run reports it.
fn in_kinds(case: Case, number: usize) -> Case {
    let kind = |bit: usize| SheetKind::ALL[(number >> bit) & 1];
    let (Ok(statement), Ok(schema)) = (read_statement(&case.statement), read_schema(&case.schema))
    else {
        return case;
    };
    Case::accepted(
        Raw::of(&statement).in_kind(kind(0)).bytes(),
        Raw::of(&schema).in_kind(kind(1)).bytes(),
    )
}

/// Accepted pairs of many items, names or bytes.
fn large() -> Vec<Case> {
    let mut cases = Vec::from(many_items().map(|raw| Case::accepted(raw.bytes(), empty(100))));
    cases.push(Case::accepted(tokens(MAX_TOKENS).bytes(), many_declarations().bytes()));
    cases.extend([0, 1].map(long_message));
    let most = MAX_NAMES as usize;
    for names in [collide(2 * most), collide_wholly(2 * most), collide_late(2 * most)] {
        let (some, others) = names.split_at(most);
        cases.extend([full_of_names(some, others), full_of_names(some, some)]);
    }
    let (even, odd) = in_turn(collide_in_case(2 * most));
    cases.extend([full_of_names(&even, &odd), full_of_calls(&even, &odd)]);
    cases.push(full_of_calls(&even, &even));
    cases
}

/// The sheet that has no clause, or no declaration.
pub fn empty(kind: u8) -> Vec<u8> {
    Tree::leaf(kind, 0).raw().bytes()
}

fn refusal(sheet: u32, found: Option<(u32, u32)>) -> Result<(), Refusal> {
    match found {
        Some((number, place)) => Err(Refusal { number, sheet, place }),
        None => Ok(()),
    }
}

fn statement(raw: Raw, found: Option<(u32, u32)>) -> Case {
    Case { statement: raw.bytes(), schema: empty(100), expected: Some(refusal(1, found)) }
}

fn schema(raw: Raw, found: Option<(u32, u32)>) -> Case {
    Case { statement: empty(90), schema: raw.bytes(), expected: Some(refusal(2, found)) }
}

/// RETURN of so many leaves that `count` tokens stand in the sheet.
fn tokens(count: u32) -> Raw {
    let mut tokens = vec![(90, 1), (75, count - 2)];
    tokens.extend((2..count).map(|i| (1 + (i % 9) as u8, 0)));
    Raw::new(tokens, Vec::new())
}

fn names(count: u32) -> Raw {
    let mut raw = Raw::new(vec![(90, 1), (75, 1), (10, 0), (50, 1023), (6, 0)], Vec::new());
    raw.names = (0..count).map(|i| i.to_string().into_bytes()).collect();
    raw
}

fn text(length: u32) -> Raw {
    let tokens = vec![(90, 1), (75, 1), (10, 0), (50, 0), (6, 0)];
    Raw::new(tokens, vec![vec![b'n'; length as usize]])
}

/// A leaf at that depth.
pub(crate) fn deep(depth: u32) -> Raw {
    let mut tokens = vec![(90, 1), (73, 0)];
    tokens.extend((2..depth).map(|_| (19, 0)));
    tokens.push((3, 0));
    Raw::new(tokens, Vec::new())
}

fn list_type(lists: u32) -> Raw {
    let property = Tree::new(110, 0, vec![Tree::name("p"), Tree::leaf(121, lists)]);
    Tree::new(100, 1, vec![Tree::new(101, 1, vec![Tree::name("A"), property])]).raw()
}

/// Counts whose children no u32 counts, or no sheet holds: 8 at the end.
fn counts_past_the_tokens() -> Vec<(Raw, (u32, u32))> {
    let kinds: [(u8, u32); 8] = [
        (13, u32::MAX),
        (14, 0x8000_0001),
        (16, u32::MAX),
        (20, u32::MAX - 3),
        (14, u32::MAX),
        (26, u32::MAX),
        (13, 4_096),
        (16, u32::MAX - 2),
    ];
    let statement = |(kind, count): (u8, u32)| {
        let mut tokens = vec![(90, 1), (73, 0), (kind, count)];
        if matches!(kind, 14 | 16) {
            tokens.push((50, 0));
        }
        tokens.push((3, 0));
        let place = tokens.len() as u32;
        (Raw::new(tokens, vec![b"n".to_vec()]), (8, place))
    };
    kinds.into_iter().map(statement).collect()
}

/// Statements with as many breaches as they have room for, all of one start,
/// each element or clause of another, or the last before all others; and one
/// of as many clauses.
fn many_items() -> [Raw; 8] {
    let falling = |i, count| count - i;
    let last_first = |i, count| (i + 1) % count;
    [
        nodes(MAX_TOKENS - 7, |_, _| 7),
        nodes(1, falling),
        nodes(1, last_first),
        nodes(1, |i, _| i % 2),
        nodes(60, falling),
        nodes_then_calls(),
        procedures(falling),
        empty_clauses_then_a_procedure(),
    ]
}

/// Which start the `i`-th of so many has.
type Start = fn(u32, u32) -> u32;

pub(crate) fn unknown(tokens: Vec<(u8, u32)>) -> Raw {
    Raw::new(tokens, vec![b"Zzz".to_vec()])
}

/// MATCH of so many nodes, each of so many labels.
fn match_nodes(count: u32, labels: u32, start: Start) -> Vec<(u8, u32)> {
    let mut tokens = vec![(70, 0), (60, 1), (61, count)];
    for start in (0..count).map(|i| start(i, count)) {
        tokens.extend([(62, 2 * labels), (51, start), (51, start + 2)]);
        tokens.extend((0..labels).map(|_| (50, 0)));
    }
    tokens
}

/// As many nodes of so many labels as a sheet has room for.
fn nodes(labels: u32, start: Start) -> Raw {
    let count = (MAX_TOKENS - 4) / (labels + 3);
    unknown([vec![(90, 1)], match_nodes(count, labels, start)].concat())
}

/// The starts of the first half are all above those of the second, which are 0.
fn nodes_then_calls() -> Raw {
    let nodes = match_nodes(MAX_TOKENS / 8, 1, |i, count| 2 * count - i);
    let calls = (MAX_TOKENS - 2 - nodes.len() as u32) / 2;
    let mut tokens = [vec![(90, 2)], nodes, vec![(75, calls)]].concat();
    tokens.extend((0..calls).flat_map(|_| [(16, 0), (50, 0)]));
    unknown(tokens)
}

pub(crate) fn call_procedure(start: u32) -> [(u8, u32); 4] {
    [(85, 0), (51, start), (51, start + 2), (50, 0)]
}

/// As many clauses as can each have a breach and a start.
fn procedures(start: Start) -> Raw {
    let count = (MAX_TOKENS - 1) / 4;
    let calls = (0..count).flat_map(|i| call_procedure(start(i, count)));
    unknown([(90, count)].into_iter().chain(calls).collect())
}

/// The highest number that the clause of a breach can have.
fn empty_clauses_then_a_procedure() -> Raw {
    let empty = MAX_TOKENS - 5;
    let mut tokens = vec![(75, 0); empty as usize];
    tokens.insert(0, (90, empty + 1));
    tokens.extend(call_procedure(7));
    unknown(tokens)
}

/// As many labels as there are names.
fn many_declarations() -> Raw {
    let label = |i: u32| Tree::new(101, 0, vec![Tree::name(&i.to_string())]);
    Tree::new(100, MAX_NAMES, (0..MAX_NAMES).rev().map(label).collect()).raw()
}

/// As many names, and bytes of them, as there may be in both sheets: a node of
/// all labels, in falling order, over these declared.
fn full_of_names(labels: &[String], declarations: &[String]) -> Case {
    let node = element(62, names_of(labels.iter().rev()), None);
    let declarations = declarations.iter().map(|name| declared(101, name, Vec::new()));
    let statement = build::statement(vec![clause(71, vec![node])]);
    let schema = build::schema(declarations.collect());
    Case::accepted(statement.raw().bytes(), schema.raw().bytes())
}

/// Every other name, and those between them.
fn in_turn(names: Vec<String>) -> (Vec<String>, Vec<String>) {
    let of = |first: usize| names.iter().skip(first).step_by(2).cloned().collect();
    (of(0), of(1))
}

/// The same of calls, in falling order, over these declared, each with another
/// number of parameters.
fn full_of_calls(calls: &[String], declarations: &[String]) -> Case {
    let called = calls.iter().rev().map(|name| call(name)).collect();
    let declared = |(i, name): (usize, &String)| Tree::new(104, i as u32, names_of([name]));
    let declarations = declarations.iter().enumerate().map(declared);
    let returned = Tree::new(75, calls.len() as u32, called);
    let schema = build::schema(declarations.collect());
    let statement = build::statement(vec![returned]);
    Case::accepted(statement.raw().bytes(), schema.raw().bytes())
}

/// A message of 16,384 bytes, and one of a byte more.
fn long_message(over: usize) -> Case {
    let name = "n".repeat(16_384 - "unknown function ``".len() + over);
    let call = Tree::new(16, 0, vec![Tree::name(&name)]);
    let tree = Tree::new(90, 1, vec![Tree::new(73, 0, vec![call])]);
    Case::accepted(tree.raw().bytes(), empty(100))
}
