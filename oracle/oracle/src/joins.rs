//! Statement sheets to join, by seed, with the answer where it is known from
//! the way they were made.

use std::ops::RangeInclusive;

use crate::build::{call, clause, element_at, names, statement};
use crate::damage::damaged;
use crate::generate::{kinds, numbered, pair};
use crate::hostile::{self, Scale};
use crate::limits::{call_procedure, deep, empty, unknown};
use crate::rng::Rng;
use crate::run::{Case, change_bytes};
use crate::sample::worked_example;
use crate::sheet::{
    MAX_DEPTH, MAX_NAMES, MAX_TEXT, MAX_TOKENS, Refusal, SheetKind, Which, read_statement,
};
use crate::tree::{Raw, Tree};

/// How two sheets were made.
#[derive(Clone, Copy, Debug, PartialEq, Eq, PartialOrd, Ord)]
pub enum Way {
    /// By the grammar.
    Kept,
    /// Of the shapes of `hostile`.
    Hostile,
    /// Without clauses: the first, the second, both.
    BareFirst,
    BareSecond,
    BareBoth,
    /// So that the refusal is known: the first, the second, both.
    DamagedFirst,
    DamagedSecond,
    DamagedBoth,
    /// With some bytes of one of them changed.
    Changed,
    /// So that the joined sheet just keeps a limit, or passes it.
    AtLimit,
    PastLimit,
    /// The same with a damaged sheet: the first, the second.
    PastAndFirst,
    PastAndSecond,
}

pub const WAYS: [Way; 13] = [
    Way::Kept,
    Way::Hostile,
    Way::BareFirst,
    Way::BareSecond,
    Way::BareBoth,
    Way::DamagedFirst,
    Way::DamagedSecond,
    Way::DamagedBoth,
    Way::Changed,
    Way::AtLimit,
    Way::PastLimit,
    Way::PastAndFirst,
    Way::PastAndSecond,
];

/// The kinds of two sheets: both of the first, then each of either.
pub const KINDS: [[SheetKind; 2]; 4] = {
    use SheetKind::{First, Thin};
    [[First, First], [Thin, First], [First, Thin], [Thin, Thin]]
};

/// The answer for a buffer that is long enough.
pub type JoinAnswer = Result<Vec<u8>, Refusal>;

/// Two sheets to join, a third that is joined to them both ways, a schema to
/// check them against, and the answer for the two, where it is known.
#[derive(Clone, Debug)]
pub struct JoinCase {
    pub first: Vec<u8>,
    pub second: Vec<u8>,
    pub third: Vec<u8>,
    pub schema: Vec<u8>,
    pub way: Way,
    pub expected: Option<JoinAnswer>,
}

/// Tokens, names and bytes of text.
pub type Sizes = [u32; 3];

/// The most of each in a sheet.
pub const MOST: Sizes = [MAX_TOKENS, MAX_NAMES, MAX_TEXT];

/// The sizes of a sheet while it is made.
pub fn sizes_of(raw: &Raw) -> Sizes {
    [raw.tokens.len(), raw.names.len(), raw.names.concat().len()].map(|size| size as u32)
}

/// The two one after another, token by token and name by name, in the first kind
/// whatever theirs is; it may be too large for a sheet.
pub fn one_after_another(first: &Raw, second: &Raw) -> Raw {
    let mut joined = first.clone().in_kind(SheetKind::First);
    joined.tokens[0].1 += second.tokens[0].1;
    for (kind, value) in &second.tokens[1..] {
        let before = if *kind == 50 { first.names.len() as u32 } else { 0 };
        joined.tokens.push((*kind, value + before));
    }
    joined.names.extend(second.names.iter().cloned());
    joined
}

/// Sheets while they are made: two, the third, the schema's bytes.
struct Made {
    sheets: [Raw; 2],
    third: Raw,
    schema: Vec<u8>,
}

impl Made {
    /// Two sheets over a schema that declares nothing, the third a short one.
    fn plain(sheets: [Raw; 2]) -> Self {
        Made { sheets, third: one_call(), schema: empty(100) }
    }

    /// The two and the third in these kinds.
    fn in_kinds(self, kinds: [SheetKind; 3]) -> Self {
        let [first, second] = self.sheets;
        let sheets = [first.in_kind(kinds[0]), second.in_kind(kinds[1])];
        Made { sheets, third: self.third.in_kind(kinds[2]), schema: self.schema }
    }

    /// The case of sheets that are not damaged; where they pass no limit the
    /// joined sheet is known.
    fn case(&self, way: Way) -> JoinCase {
        let [first, second] = &self.sheets;
        let joined = one_after_another(first, second);
        let passes = sizes_of(&joined).iter().zip(MOST).any(|(size, most)| *size > most);
        let expected = if passes { Err(Refusal::neither(20)) } else { Ok(joined.bytes()) };
        let [first, second, third] = [first, second, &self.third].map(Raw::bytes);
        let schema = self.schema.clone();
        JoinCase { first, second, third, schema, way, expected: Some(expected) }
    }

    /// One of the two sheets damaged, by number of the refusal.
    fn damaged(&self, at: usize, number: u32, rng: &mut Rng) -> Option<(Vec<u8>, Refusal)> {
        let (bytes, number, place) = damaged(&self.sheets[at], Which::Statement, number, rng)?;
        Some((bytes, Refusal { number, sheet: at as u32 + 1, place }))
    }

    fn first_damaged(&self, way: Way, number: u32, rng: &mut Rng) -> Option<JoinCase> {
        let (first, refusal) = self.damaged(0, number, rng)?;
        Some(JoinCase { first, expected: Some(Err(refusal)), ..self.case(way) })
    }

    fn second_damaged(&self, way: Way, number: u32, rng: &mut Rng) -> Option<JoinCase> {
        let (second, refusal) = self.damaged(1, number, rng)?;
        Some(JoinCase { second, expected: Some(Err(refusal)), ..self.case(way) })
    }

    /// The first's refusal counts.
    fn both_damaged(&self, numbers: [u32; 2], rng: &mut Rng) -> Option<JoinCase> {
        let (second, _) = self.damaged(1, numbers[1], rng)?;
        Some(JoinCase { second, ..self.first_damaged(Way::DamagedBoth, numbers[0], rng)? })
    }

    fn changed(&self, rng: &mut Rng) -> JoinCase {
        let mut case = JoinCase { expected: None, ..self.case(Way::Changed) };
        let sheet = if rng.chance(50) { &mut case.first } else { &mut case.second };
        change_bytes(sheet, rng);
        case
    }

    /// Some of the two without their clauses; all names stay.
    fn bare(mut self, which: &[usize], way: Way) -> JoinCase {
        for at in which {
            self.sheets[*at].tokens = vec![(90, 0)];
        }
        self.case(way)
    }
}

/// One case in so many stands at a limit or past it; one in so many of the
/// others is of the hostile shapes, and one in so many of these is in full.
const AT_A_LIMIT: usize = 256;
const HOSTILE: usize = 8;
const IN_FULL: usize = 48;

/// The `number`-th case of a seed. The kinds of its sheets are drawn apart.
pub fn join_case(seed: u64, number: u64) -> JoinCase {
    let mut rng = Rng::new(seed.rotate_left(24), number);
    let kinds = kinds(&mut Rng::new(seed.rotate_left(40), number));
    if rng.below(AT_A_LIMIT) == 0 {
        return at_a_limit(kinds, &mut rng);
    }
    if rng.below(HOSTILE) == 0 {
        return hostile_shapes(&mut rng).in_kinds(kinds).case(Way::Hostile);
    }
    let made = grown(&mut rng).in_kinds(kinds);
    let [one, other] = [0, 1].map(|_| 1 + rng.below(9) as u32);
    let found = match rng.below(20) {
        0 => made.first_damaged(Way::DamagedFirst, one, &mut rng),
        1 | 2 => made.second_damaged(Way::DamagedSecond, one, &mut rng),
        3 => made.both_damaged([one, other], &mut rng),
        4 | 5 => Some(made.changed(&mut rng)),
        6 => return made.bare(&[0], Way::BareFirst),
        7 => return made.bare(&[1], Way::BareSecond),
        8 => return made.bare(&[0, 1], Way::BareBoth),
        _ => None,
    };
    found.unwrap_or_else(|| made.case(Way::Kept))
}

/// Grown from the grammar, over the schema that grew with one of them.
fn grown(rng: &mut Rng) -> Made {
    let mut grow = || {
        let pair = pair(rng);
        (numbered(&pair.statement, rng), numbered(&pair.schema, rng).bytes())
    };
    let [(first, one), (second, two), (third, three)] = [grow(), grow(), grow()];
    let schema = rng.pick(&[one, two, three]).clone();
    Made { sheets: [first, second], third, schema }
}

fn hostile_shapes(rng: &mut Rng) -> Made {
    let [first, second] = [0, 1].map(|_| match rng.below(IN_FULL) {
        0 => accepted(rng, hostile::FULL),
        _ => accepted(rng, hostile::SMALL),
    });
    let third = raw_of(&accepted(rng, hostile::SMALL));
    let schema = rng.pick(&[&first, &second]).schema.clone();
    Made { sheets: [raw_of(&first), raw_of(&second)], third, schema }
}

/// A hostile pair whose schema is not refused.
fn accepted(rng: &mut Rng, scale: Scale) -> Case {
    loop {
        let case = hostile::case(rng, scale);
        if case.expected == Some(Ok(())) {
            return case;
        }
    }
}

fn raw_of(case: &Case) -> Raw {
    Raw::of(&read_statement(&case.statement).expect("a statement that was made so"))
}

/// A statement of these sizes: RETURN of leaves behind calls of up to three
/// names, or no clause where there is one token. Without names it has no text.
pub(crate) fn sized([tokens, names, text]: Sizes) -> Raw {
    let names = even_names(names as usize, text as usize);
    if tokens == 1 {
        return Raw::new(vec![(90, 0)], names);
    }
    let held = tokens - 2;
    let last = names.len().saturating_sub(1) as u32;
    let callees: Vec<u32> = if names.is_empty() { vec![] } else { vec![last, 0, last / 2] };
    let calls = callees.len().min(held as usize / 2);
    let mut tokens = vec![(90, 1), (75, held - calls as u32)];
    tokens.extend(callees[..calls].iter().flat_map(|name| [(16, 0), (50, *name)]));
    tokens.extend((2 * calls as u32..held).map(|i| (1 + (i % 9) as u8, 0)));
    Raw::new(tokens, names)
}

/// So many names of so many bytes together, all but the last equally long.
pub(crate) fn even_names(count: usize, bytes: usize) -> Vec<Vec<u8>> {
    let each = bytes.checked_div(count).unwrap_or(0);
    let mut names: Vec<Vec<u8>> = (0..count).map(|i| vec![b'a' + (i % 26) as u8; each]).collect();
    if let Some(last) = names.last_mut() {
        last.resize(each + bytes % count, b'z');
    }
    names
}

/// Sizes of the joined sheet at one limit or one past it, sometimes past another
/// too, parted over the two sheets at random.
fn at_a_limit(kinds: [SheetKind; 3], rng: &mut Rng) -> JoinCase {
    let which = rng.below(MOST.len());
    let over = rng.below(2) as u32;
    let mut sizes = MOST.map(|limit| 4 + rng.below(limit as usize / 4) as u32);
    sizes[which] = MOST[which] + over;
    if over == 1 && rng.chance(30) {
        let other = (which + 1) % MOST.len();
        sizes[other] = MOST[other] + 1 + rng.below(9) as u32;
    }
    let parts = parted(sizes, rng);
    let made = Made::plain(parts.map(sized)).in_kinds(kinds);
    let number = 1 + rng.below(9) as u32;
    let found = match rng.below(6) {
        0 if over == 1 => made.first_damaged(Way::PastAndFirst, number, rng),
        1 | 2 if over == 1 => made.second_damaged(Way::PastAndSecond, number, rng),
        _ => None,
    };
    found.unwrap_or_else(|| made.case(if over == 1 { Way::PastLimit } else { Way::AtLimit }))
}

/// Sizes of two sheets that join to these, each within the limits and with a
/// name at least; token 0 stands in both.
fn parted([tokens, names, text]: Sizes, rng: &mut Rng) -> [Sizes; 2] {
    let mut part = |size: u32, least: u32, limit: u32| {
        let lowest = least.max(size.saturating_sub(limit));
        let highest = limit.min(size - least);
        let first = lowest + rng.below((highest - lowest) as usize + 1) as u32;
        [first, size - first]
    };
    let tokens = part(tokens + 1, 1, MOST[0]);
    let names = part(names, 1, MOST[1]);
    let text = part(text, 0, MOST[2]);
    [0, 1].map(|i| [tokens[i], names[i], text[i]])
}

/// One clause, which calls an unknown procedure.
fn one_call() -> Raw {
    unknown([(90, 1)].into_iter().chain(call_procedure(7)).collect())
}

/// Sizes of two sheets whose sum is at one limit, or at all.
const AT: &[[Sizes; 2]] = &[
    [[1, 0, 0], [4_096, 0, 0]],
    [[4_096, 0, 0], [1, 0, 0]],
    [[2_048, 3, 9], [2_049, 3, 9]],
    [[5, 0, 0], [5, 1_024, 0]],
    [[5, 1_024, 10], [5, 0, 0]],
    [[9, 512, 600], [9, 512, 600]],
    [[5, 0, 0], [5, 1, 32_768]],
    [[5, 1, 32_768], [5, 1, 0]],
    [[9, 2, 16_384], [9, 3, 16_384]],
    [[9, 1, 1], [9, 1, 32_767]],
    [[1, 1_024, 32_768], [4_096, 0, 0]],
];

/// At all three at once.
const AT_ALL: [Sizes; 2] = [[2_048, 512, 16_384], [2_049, 512, 16_384]];

/// One past each limit alone.
const PAST: [[Sizes; 2]; 3] =
    [[[2_049, 1, 1], [2_049, 1, 1]], [[5, 513, 0], [5, 512, 0]], [[5, 1, 16_385], [5, 1, 16_384]]];

/// One past two limits.
const PAST_TWO: [Sizes; 2] = [[4_096, 1_024, 0], [2, 1, 0]];

/// Further past one limit or several.
const FURTHER: &[[Sizes; 2]] = &[
    [[2, 0, 0], [4_096, 0, 0]],
    [[4_096, 0, 0], [2, 0, 0]],
    [[4_096, 0, 0], [4_096, 0, 0]],
    [[5, 1, 0], [5, 1_024, 0]],
    [[5, 1_024, 0], [5, 1, 0]],
    [[5, 1_024, 0], [5, 1_024, 0]],
    [[5, 1, 1], [5, 1, 32_768]],
    [[5, 1, 32_768], [5, 1, 1]],
    [[5, 1, 32_768], [5, 1, 32_768]],
    [[5, 1_024, 32_768], [5, 1, 1]],
    [[4_096, 1, 32_768], [2, 1, 1]],
    [[4_096, 1_024, 32_768], [4_096, 1_024, 32_768]],
];

fn by_sizes(sizes: &[Sizes; 2], kinds: [SheetKind; 2], way: Way) -> JoinCase {
    let [first, second] = kinds;
    Made::plain(sizes.map(sized)).in_kinds([first, second, first]).case(way)
}

/// Such sizes in each of these kinds by turns.
fn by_turns<'a>(
    all: impl Iterator<Item = &'a [Sizes; 2]>,
    way: Way,
) -> impl Iterator<Item = JoinCase> {
    all.zip(KINDS.into_iter().cycle()).map(move |(sizes, kinds)| by_sizes(sizes, kinds, way))
}

/// A sheet that with the other passes a limit, and the other damaged so that it
/// draws each of the refusals: as the second, and as the first.
fn past_and_damaged(sizes: [Sizes; 2], numbers: RangeInclusive<u32>) -> Vec<JoinCase> {
    let [full, short] = sizes.map(sized);
    let of_number = |number: u32| {
        let rng = &mut Rng::new(u64::from(number), 0);
        let [one, other] = KINDS[number as usize % KINDS.len()];
        let kinds = [one, other, SheetKind::First];
        let second = Made::plain([full.clone(), short.clone()]).in_kinds(kinds);
        let first = Made::plain([short.clone(), full.clone()]).in_kinds(kinds);
        let of_second = second.second_damaged(Way::PastAndSecond, number, rng);
        [of_second, first.first_damaged(Way::PastAndFirst, number, rng)]
    };
    numbers.flat_map(of_number).flatten().collect()
}

/// Leaves at the full depth, and one deeper; and the highest clause number
/// that a breach can have.
fn deep_and_late() -> Vec<JoinCase> {
    let deepest = || deep(MAX_DEPTH);
    let too_deep = Refusal { number: 7, sheet: 2, place: MAX_DEPTH + 1 };
    let past = Made::plain([deepest(), deep(MAX_DEPTH + 1)]).case(Way::DamagedSecond);
    let bare = MAX_TOKENS - 5;
    let clauses = [vec![(90, bare)], vec![(75, 0); bare as usize]].concat();
    vec![
        Made::plain([deepest(), deepest()]).case(Way::Kept),
        JoinCase { expected: Some(Err(too_deep)), ..past },
        Made::plain([unknown(clauses), one_call()]).case(Way::AtLimit),
    ]
}

/// Every case at or past a limit.
pub fn limits() -> Vec<JoinCase> {
    let at = by_turns(AT.iter(), Way::AtLimit);
    let at = at.chain(KINDS.map(|kinds| by_sizes(&AT_ALL, kinds, Way::AtLimit)));
    let past = by_turns(PAST.iter().chain([&PAST_TWO]).chain(FURTHER), Way::PastLimit);
    let damaged = past_and_damaged([[4_096, 1_024, 32_768], [60, 3, 9]], 1..=9);
    at.chain(past).chain(damaged).chain(deep_and_late()).collect()
}

/// Those that are stored: at all limits, past each and past two, and past that
/// of names, which takes few bytes, with a damaged sheet on either side.
pub fn stored_limits() -> Vec<JoinCase> {
    let past = by_turns(PAST.iter().chain([&PAST_TWO]), Way::PastLimit);
    let damaged = past_and_damaged([[1, 1_024, 0], [5, 1, 0]], 6..=6);
    let at = by_sizes(&AT_ALL, [SheetKind::Thin, SheetKind::First], Way::AtLimit);
    [at].into_iter().chain(past).chain(damaged).collect()
}

/// A few short ones: the worked example with itself, equal names on both
/// sides, sheets without clauses, bytes that are no statement.
pub fn small() -> Vec<JoinCase> {
    let (example, schema) = worked_example();
    let example = Raw::of(&read_statement(&example).expect("01's example"));
    let sheets = [example.clone(), example.clone()];
    let twice = || Made { sheets: sheets.clone(), third: example.clone(), schema: schema.clone() };
    let node = |label: &str| element_at([12, 16], 62, names([label]), None);
    let of = |label: &str| statement(vec![clause(70, vec![node(label)]), returned("f")]).raw();
    let rng = &mut Rng::new(0, 1);
    let damaged = (1..=9).flat_map(|number| {
        let [one, other] = KINDS[number as usize % KINDS.len()];
        let made = twice().in_kinds([one, other, one]);
        let first = made.first_damaged(Way::DamagedFirst, number, rng);
        let second = made.second_damaged(Way::DamagedSecond, number, rng);
        let both = made.both_damaged([number, 10 - number], rng);
        [first, second, both]
    });
    let mut cases = vec![
        twice().case(Way::Kept),
        Made::plain([of("A"), of("B")]).case(Way::Kept),
        Made::plain([of("A"), of("A")]).case(Way::Kept),
        twice().bare(&[0], Way::BareFirst),
        twice().bare(&[1], Way::BareSecond),
        twice().bare(&[0, 1], Way::BareBoth),
        Made::plain([sized([1, 0, 0]), sized([1, 0, 0])]).case(Way::BareBoth),
    ];
    cases.extend(KINDS[1..].iter().map(|[one, other]| {
        Made::plain([of("A"), of("B")]).in_kinds([*one, *other, *one]).case(Way::Kept)
    }));
    cases.extend(damaged.flatten());
    cases.extend(schemas_for_statements(&twice().case(Way::Kept)));
    cases
}

/// RETURN of a call.
fn returned(name: &str) -> Tree {
    Tree::new(75, 1, vec![call(name)])
}

/// A schema's sheet in place of the first, and of the second.
fn schemas_for_statements(case: &JoinCase) -> [JoinCase; 2] {
    let refused = |sheet| Some(Err(Refusal { number: 6, sheet, place: 0 }));
    let [first, second] = [case.schema.clone(), case.schema.clone()];
    let [one, other] = [case.clone(), case.clone()];
    [
        JoinCase { first, way: Way::DamagedFirst, expected: refused(1), ..one },
        JoinCase { second, way: Way::DamagedSecond, expected: refused(2), ..other },
    ]
}
