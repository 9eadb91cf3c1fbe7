//! Generated statements that are joined, by seed: each answer held against what
//! the sheets were made to draw, against the two put together token by token,
//! and its list against the two lists, which are the published Rust's. The tally
//! fails where a refusal, a way or a limit never came.

use crate::answers::message_of;
use crate::compare::{Difference, differs, judge, read_pair};
use crate::counts::{self, Counts, Refusals, count_refusal, refusal_line};
use crate::items::Item;
use crate::join::join_statements;
use crate::joins::{
    JoinAnswer, JoinCase, KINDS, MOST, WAYS, Way, join_case, limits, one_after_another, sizes_of,
    small,
};
use crate::run::{cut, listings, shrunk_sheets};
use crate::sheet::{Refusal, Sheet, SheetKind, Which, fits, read_statement};
use crate::tree::Raw;

/// How often each refusal and way came, and each limit.
#[derive(Clone, Debug, Default)]
pub struct JoinTally {
    pub joins: u64,
    pub accepted: u64,
    /// Joined papers to whose list both sheets added.
    pub from_both: u64,
    /// Three statements joined both ways.
    pub threes: u64,
    pub refusals: Refusals,
    pub ways: Counts<Way>,
    /// Joined sheets, by the kinds of the two.
    pub kinds: Counts<[SheetKind; 2]>,
    /// Joined sheets with as many tokens, names, bytes of text as there may be.
    pub at: [u64; 3],
    /// Those that pass that limit alone, by one.
    pub past: [u64; 3],
    /// Those that pass several.
    pub past_several: u64,
}

/// Number and sheet of every refusal of the joiner.
pub fn join_refusals() -> impl Iterator<Item = (u32, u32)> {
    let of_sheets = [1, 2].into_iter().flat_map(|sheet| (1..=9).map(move |number| (number, sheet)));
    of_sheets.chain([(20, 0), (16, 0)])
}

/// What a sheet has three sizes of.
const OF: [&str; 3] = ["tokens", "names", "bytes of text"];

impl JoinTally {
    /// Answers one case, holds it against all that is known, and counts it.
    pub fn take(&mut self, case: &JoinCase) -> Result<JoinAnswer, Difference> {
        let answer = judged(case)?;
        self.joins += 1;
        *self.ways.entry(case.way).or_default() += 1;
        self.sizes(case);
        match &answer {
            Ok(sheet) => self.sheet(case, sheet)?,
            Err(refusal) => count_refusal(&mut self.refusals, *refusal),
        }
        Ok(answer)
    }

    fn sheet(&mut self, case: &JoinCase, sheet: &[u8]) -> Result<(), Difference> {
        self.accepted += 1;
        let kinds = [&case.first, &case.second].map(|sheet| SheetKind::of(sheet));
        *self.kinds.entry(kinds).or_default() += 1;
        count_refusal(&mut self.refusals, Refusal::neither(16));
        self.from_both += u64::from(listed(case, sheet)?);
        self.threes += u64::from(joined_both_ways(case)?);
        Ok(())
    }

    /// Counts the limits that two accepted sheets come to or pass.
    fn sizes(&mut self, case: &JoinCase) {
        let Ok([first, second]) = read_both(case) else { return };
        let sizes = sizes_of(&put_together(&first, &second));
        let passed = (0..MOST.len()).filter(|i| sizes[*i] > MOST[*i]).count();
        for i in 0..MOST.len() {
            self.at[i] += u64::from(passed == 0 && sizes[i] == MOST[i]);
            self.past[i] += u64::from(passed == 1 && sizes[i] == MOST[i] + 1);
        }
        self.past_several += u64::from(passed > 1);
    }

    /// Adds what another tally counted.
    pub fn add(&mut self, other: &JoinTally) {
        self.joins += other.joins;
        self.accepted += other.accepted;
        self.from_both += other.from_both;
        self.threes += other.threes;
        counts::add(&mut self.refusals, &other.refusals);
        counts::add(&mut self.ways, &other.ways);
        counts::add(&mut self.kinds, &other.kinds);
        for i in 0..MOST.len() {
            self.at[i] += other.at[i];
            self.past[i] += other.past[i];
        }
        self.past_several += other.past_several;
    }

    /// What never came: refusals, ways, kinds that go together, limits, lists of
    /// both sheets, three statements.
    pub fn missing(&self) -> Vec<String> {
        let refusals = join_refusals().filter(|key| !self.refusals.contains_key(key));
        let mut missing: Vec<String> = refusals
            .map(|(number, sheet)| format!("refusal {number} of sheet {sheet} of a join"))
            .collect();
        let ways = WAYS.iter().filter(|way| !self.ways.contains_key(way));
        missing.extend(ways.map(|way| format!("sheets to join made so: {way:?}")));
        let kinds = KINDS.iter().filter(|kinds| !self.kinds.contains_key(*kinds));
        missing.extend(kinds.map(|kinds| format!("sheets of kinds {kinds:?} joined")));
        for i in 0..MOST.len() {
            let (most, of) = (MOST[i], OF[i]);
            let [at, past] = [self.at[i], self.past[i]].map(|count| count == 0);
            missing.extend(at.then(|| format!("a joined sheet of {most} {of}")));
            missing.extend(past.then(|| format!("one {of} more than {most} in a joined sheet")));
        }
        let others = [
            (self.past_several, "a joined sheet past several limits"),
            (self.from_both, "a joined list of both sheets"),
            (self.threes, "three statements joined both ways"),
        ];
        let never = others.into_iter().filter(|(count, _)| *count == 0);
        missing.extend(never.map(|(_, what)| what.to_owned()));
        missing
    }

    pub fn report(&self) -> String {
        let JoinTally { joins, accepted, from_both, threes, at, past, past_several, .. } = self;
        let mut out = format!("{joins} joins, {accepted} accepted; {from_both} lists of both, ");
        out += &format!("{threes} times three statements both ways");
        out += &refusal_line(&self.refusals);
        out += &counts::line("made so", &self.ways, |way| format!("{way:?}"));
        out += &counts::line("joined by kinds", &self.kinds, |kinds| format!("{kinds:?}"));
        out += &format!("\nat the limit of tokens, names, text {at:?}, one past it {past:?}, ");
        out + &format!("past several {past_several}\n")
    }
}

fn read_both(case: &JoinCase) -> Result<[Sheet; 2], Refusal> {
    Ok([read_statement(&case.first)?, read_statement(&case.second)?])
}

fn put_together(first: &Sheet, second: &Sheet) -> Raw {
    one_after_another(&Raw::of(first), &Raw::of(second))
}

/// The answer to a case, after it was held against what the case was made to
/// draw and, where both sheets are read, against these put together: 20 exactly
/// where the reader finds a size of that out of its range.
pub fn judged(case: &JoinCase) -> Result<JoinAnswer, Difference> {
    let answer = join_statements(&case.first, &case.second, usize::MAX);
    if case.expected.as_ref().is_some_and(|expected| *expected != answer) {
        let expected = &case.expected;
        return differs(format!("joined to {answer:?}, made to be {expected:?}"));
    }
    if let Ok([first, second]) = read_both(case) {
        let whole = put_together(&first, &second).bytes();
        let wanted = match read_statement(&whole) {
            Ok(_) => Ok(whole),
            Err(Refusal { number: 2, .. }) => Err(Refusal::neither(20)),
            Err(refusal) => return differs(format!("put together, it draws {refusal:?}")),
        };
        if answer != wanted {
            return differs(format!("joined to {answer:?}, put together {wanted:?}"));
        }
    }
    rooms(case, &answer)?;
    Ok(answer)
}

/// Buffers of no byte, one byte short, exactly as long, longer: 16 where the
/// sheet is longer, and behind every other refusal.
fn rooms(case: &JoinCase, answer: &JoinAnswer) -> Result<(), Difference> {
    let length = answer.as_ref().map_or(1, Vec::len);
    for room in [0, length - 1, length, length + 1] {
        let given = join_statements(&case.first, &case.second, room);
        let wanted = answer.clone().and_then(|sheet| fits(sheet.len(), room).map(|()| sheet));
        if given != wanted {
            return differs(format!("with {room} bytes lent {given:?}, not {wanted:?}"));
        }
    }
    Ok(())
}

/// A paper's list, held against the Rust's, and its messages.
struct Paper {
    items: Vec<Item>,
    messages: Vec<Vec<u8>>,
}

impl Paper {
    /// None where a sheet is refused.
    fn of(statement: &[u8], schema: &[u8]) -> Result<Option<Self>, Difference> {
        let Ok(items) = judge(statement, schema)? else { return Ok(None) };
        let (statement, schema) = read_pair(statement, schema).expect("accepted");
        let message = |k| message_of(&statement, &schema, &items, k, usize::MAX);
        let messages = (0..items.len()).map(|k| message(k).expect("an item of the list"));
        Ok(Some(Paper { messages: messages.collect(), items }))
    }
}

/// Holds the joined paper's list and messages against those of the two. Answers
/// whether both had items; under a schema that is refused there are none.
fn listed(case: &JoinCase, joined: &[u8]) -> Result<bool, Difference> {
    let paper = |statement: &[u8]| Paper::of(statement, &case.schema);
    let papers = (paper(&case.first)?, paper(&case.second)?, paper(joined)?);
    let (Some(first), Some(second), Some(joined)) = papers else { return Ok(false) };
    let before = read_statement(&case.first).expect("accepted");
    let wanted = moved_on(&before, [&first.items, &second.items]);
    if joined.items != wanted {
        let both = |k: usize| (joined.items.get(k), wanted.get(k));
        let mut items = (0..joined.items.len().max(wanted.len())).map(both);
        let first = items.find(|(item, wanted)| item != wanted);
        return differs(format!("an item of the joined list, and of the two in turn: {first:?}"));
    }
    if joined.messages != [&first.messages[..], &second.messages].concat() {
        return differs("a message of the joined paper has other bytes".into());
    }
    Ok(!first.items.is_empty() && !second.items.is_empty())
}

/// The first list, then the second with owners and clauses moved on: by the
/// first sheet's tokens less one, and by its clauses.
fn moved_on(first: &Sheet, [list, more]: [&[Item]; 2]) -> Vec<Item> {
    let (tokens, clauses) = (first.tokens.len() as u32 - 1, first.value(0));
    let moved = more.iter().map(|item| Item {
        owner: item.owner + tokens,
        clause: item.clause + clauses,
        ..*item
    });
    list.iter().copied().chain(moved).collect()
}

/// The first two joined and then the third, and the first with the last two
/// joined: the same answer, where all three are accepted. Whether it is a sheet.
fn joined_both_ways(case: &JoinCase) -> Result<bool, Difference> {
    let join = |one: &[u8], other: &[u8]| join_statements(one, other, usize::MAX);
    let from_left = join(&case.first, &case.second).and_then(|two| join(&two, &case.third));
    let from_right = join(&case.second, &case.third).and_then(|two| join(&case.first, &two));
    if from_left != from_right {
        return differs(format!("three joined: {from_left:?}, the other way {from_right:?}"));
    }
    Ok(from_left.is_ok())
}

/// Runs the short cases, the limits and `joins` generated cases. A difference
/// stops it.
pub fn run(seed: u64, joins: u64) -> Result<JoinTally, String> {
    let mut tally = JoinTally::default();
    let generated = (0..joins).map(|number| (format!("join {number}"), join_case(seed, number)));
    let fixed = small().into_iter().chain(limits());
    let fixed = fixed.map(|case| ("limits".to_owned(), case));
    for (what, case) in fixed.chain(generated) {
        if let Err(Difference(difference)) = tally.take(&case) {
            let judge = |case: &JoinCase| JoinTally::default().take(case).map(|_| ());
            return Err(format!("{what}: {}\n{}", cut(&difference), shrunk(&case, judge)));
        }
    }
    Ok(tally)
}

/// The smallest sheets found that `judge` still finds to differ, or the case as
/// it is. Sheets at a limit are left as they are: smaller ones are not there.
pub fn shrunk(case: &JoinCase, judge: impl Fn(&JoinCase) -> Result<(), Difference>) -> String {
    let sheets = [&case.first[..], &case.second, &case.third, &case.schema];
    if matches!(case.way, Way::AtLimit | Way::PastLimit | Way::PastAndFirst | Way::PastAndSecond) {
        return listings(sheets.into_iter());
    }
    let which = [Which::Statement, Which::Statement, Which::Statement, Which::Schema];
    let mut sheets = sheets.into_iter().zip(which);
    let sheets = [0; 4].map(|_| sheets.next().expect("four sheets"));
    shrunk_sheets(sheets, |[first, second, third, schema]| {
        let [first, second, third] = [first, second, third].map(Vec::clone);
        let (schema, way) = (schema.clone(), case.way);
        judge(&JoinCase { first, second, third, schema, way, expected: None })
    })
}
