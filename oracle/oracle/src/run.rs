//! The comparison: generated pairs by seed, each answer held against the
//! Rust, and a tally that fails where a code, refusal or kind never came, no
//! margin list in another order, no names of each sort that differ in case, or
//! no thin sheets.

use crate::answers::{fit_list, message_of};
use crate::cased::{CASED, Cased, cased};
use crate::compare::{Difference, judge, read_pair};
use crate::counts::{self, Counts, Refusals, count_refusal, refusal_line};
use crate::damage::{Damaged, damaged, earlier_fault};
use crate::generate::{Pair, kinds, numbered, pair, pair_in_cases};
use crate::grammar::RULES;
use crate::hostile;
use crate::items::{ITEM_WIDTH, Item};
use crate::limits;
use crate::margin::in_margin;
use crate::notation::show;
use crate::rng::Rng;
use crate::sheet::{Refusal, Sheet, SheetKind, Which, read_form, read_schema, read_statement};
use crate::shrink::smallest;
use crate::thin_run::ThinTally;
use crate::tree::{Raw, Tree};

/// Two sheets and what reading them must answer, where that is known from
/// the way they were made.
#[derive(Clone, Debug)]
pub struct Case {
    pub statement: Vec<u8>,
    pub schema: Vec<u8>,
    pub expected: Option<Result<(), Refusal>>,
}

impl Case {
    pub fn accepted(statement: Vec<u8>, schema: Vec<u8>) -> Self {
        Case { statement, schema, expected: Some(Ok(())) }
    }
}

/// One pair in so many has one of the hostile shapes scaled down, and one in
/// so many has one in full.
const SCALED_DOWN: usize = 16;
const IN_FULL: usize = 1_024;

/// The `number`-th pair of a seed: a hostile one, three times as often one as
/// `in_cases` says, else as `ordinary` says.
pub fn case(seed: u64, number: u64) -> Case {
    let mut rng = Rng::new(seed.rotate_left(32), number);
    match (rng.below(IN_FULL), rng.below(SCALED_DOWN)) {
        (0, _) => hostile::case(&mut rng, hostile::FULL),
        (_, 0) => hostile::case(&mut rng, hostile::SMALL),
        (_, 1..=3) => in_cases(seed, number),
        _ => ordinary(seed, number),
    }
}

/// The `number`-th pair of a seed grown from the grammar.
pub fn ordinary(seed: u64, number: u64) -> Case {
    grown(pair, seed, number)
}

/// The same of names that are alike but for case.
pub fn in_cases(seed: u64, number: u64) -> Case {
    grown(pair_in_cases, seed, number)
}

/// The kinds of a pair's sheets are drawn apart: with either kind a seed has the
/// same documents.
fn kinds_of(seed: u64, number: u64) -> [SheetKind; 2] {
    kinds(&mut Rng::new(seed.rotate_left(16), number))
}

/// Of ten grown pairs, six valid, three damaged so that the refusal is known,
/// one changed at random.
fn grown(pair: fn(&mut Rng) -> Pair, seed: u64, number: u64) -> Case {
    let mut rng = Rng::new(seed, number);
    let pair = pair(&mut rng);
    let [of_statement, of_schema] = kinds_of(seed, number);
    let statement = numbered(&pair.statement, &mut rng).in_kind(of_statement);
    let schema = numbered(&pair.schema, &mut rng).in_kind(of_schema);
    let valid = Case::accepted(statement.bytes(), schema.bytes());
    let found = match number % 10 {
        6 => Some(changed_at_random(&valid, &mut rng)),
        7 => damaged_statement(&valid, &statement, &mut rng),
        8 => damaged_schema(&valid, &schema, &mut rng),
        9 => damaged_twice(&valid, &statement, &schema, &mut rng),
        _ => None,
    };
    found.unwrap_or(valid)
}

fn refusal(which: Which, damaged: &Damaged) -> Refusal {
    Refusal { number: damaged.1, sheet: which.number(), place: damaged.2 }
}

fn damaged_statement(valid: &Case, raw: &Raw, rng: &mut Rng) -> Option<Case> {
    let number = 1 + rng.below(9) as u32;
    let found = damaged(raw, Which::Statement, number, rng)?;
    let expected = Some(Err(refusal(Which::Statement, &found)));
    Some(Case { statement: found.0, schema: valid.schema.clone(), expected })
}

fn damaged_schema(valid: &Case, raw: &Raw, rng: &mut Rng) -> Option<Case> {
    let number = 1 + rng.below(13) as u32;
    let found = damaged(raw, Which::Schema, number, rng)?;
    let expected = Some(Err(refusal(Which::Schema, &found)));
    Some(Case { statement: valid.statement.clone(), schema: found.0, expected })
}

/// Two faults: in both sheets, where the statement's counts, or an early one
/// over a late one in the same sheet, where the early one counts.
fn damaged_twice(valid: &Case, statement: &Raw, schema: &Raw, rng: &mut Rng) -> Option<Case> {
    let late = damaged_schema(valid, schema, rng)?;
    if rng.chance(50) {
        let early = damaged_statement(valid, statement, rng)?;
        return Some(Case { schema: late.schema, ..early });
    }
    let number = 1 + rng.below(3) as u32;
    if matches!(late.expected, Some(Err(found)) if found.number < 4) {
        return None;
    }
    let schema = earlier_fault(late.schema, number, rng);
    let expected = Some(Err(Refusal { number, sheet: 2, place: 0 }));
    Some(Case { statement: late.statement, schema, expected })
}

/// One of the sheets changed; it may stay valid.
fn changed_at_random(valid: &Case, rng: &mut Rng) -> Case {
    let mut case = Case { expected: None, ..valid.clone() };
    let sheet = if rng.chance(60) { &mut case.statement } else { &mut case.schema };
    change_bytes(sheet, rng);
    case
}

/// Changes some kinds, low bytes of values, ends or text.
pub fn change_bytes(sheet: &mut [u8], rng: &mut Rng) {
    for _ in 0..=rng.below(3) {
        let at = 12 + rng.below(sheet.len() - 12);
        let kinds: Vec<u8> = RULES.iter().map(|rule| rule.kind).collect();
        sheet[at] = match rng.below(3) {
            0 => *rng.pick(&kinds),
            1 => sheet[at].wrapping_add(1),
            _ => rng.below(4) as u8,
        };
    }
}

/// How often each code, refusal and kind occurred.
#[derive(Clone, Debug, Default)]
pub struct Tally {
    pub pairs: u64,
    pub accepted: u64,
    pub items: u64,
    pub most_items: usize,
    pub most_tokens: usize,
    pub deepest_owner: u32,
    /// Lists that the margin list has in another order.
    pub reordered: u64,
    /// Items that do not stand in the first clause.
    pub in_later_clauses: u64,
    /// Pairs with names that differ in case, by sort.
    pub cased: Counts<Cased>,
    /// Sheets of the thin kind, and all that were converted to it.
    pub thin: ThinTally,
    pub codes: Counts<u32>,
    pub refusals: Refusals,
    pub kinds: Counts<u8>,
}

const CODES: [u32; 9] = [3001, 3002, 3003, 3004, 3006, 3007, 3008, 3009, 4023];

impl Tally {
    /// What never came: codes, refusals by sheet, kinds, another order in the
    /// margin, an item of a later clause, names that differ in case.
    pub fn missing(&self) -> Vec<String> {
        let codes = CODES.iter().filter(|code| !self.codes.contains_key(code));
        let mut missing: Vec<String> = codes.map(|code| format!("code {code}")).collect();
        let of_statement = (1..=9).map(|number| (number, 1));
        let of_schema = (1..=13).filter(|number| *number != 7).map(|number| (number, 2));
        let of_neither = (14..=16).map(|number| (number, 0));
        for key in of_statement.chain(of_schema).chain(of_neither) {
            if !self.refusals.contains_key(&key) {
                missing.push(format!("refusal {} of sheet {}", key.0, key.1));
            }
        }
        for rule in RULES.iter().filter(|rule| !self.kinds.contains_key(&rule.kind)) {
            missing.push(format!("kind {} {}", rule.kind, rule.word));
        }
        if self.reordered == 0 {
            missing.push("a margin list in another order".into());
        }
        if self.in_later_clauses == 0 {
            missing.push("an item of a later clause".into());
        }
        let cased = CASED.iter().filter(|cased| !self.cased.contains_key(cased));
        missing.extend(cased.map(|cased| format!("names that differ in case: {cased:?}")));
        missing.extend(self.thin.missing());
        missing
    }

    pub fn report(&self) -> String {
        let Tally { pairs, accepted, items, most_items, most_tokens, deepest_owner, .. } = self;
        let mut out = format!("{pairs} pairs, {accepted} accepted, {items} items; ");
        out += &format!("at most {most_tokens} tokens in a sheet, {most_items} items in a list, ");
        out += &format!("an owner at depth {deepest_owner}");
        out += &format!("\nmargin: {} lists in another order, ", self.reordered);
        out += &format!("{} items of later clauses", self.in_later_clauses);
        out += &counts::line("pairs with names in other case", &self.cased, |c| format!("{c:?}"));
        out += &counts::line("codes", &self.codes, |code| format!("E{code}"));
        out += &refusal_line(&self.refusals);
        out += &counts::line("kinds", &self.kinds, u8::to_string);
        out + "\n" + &self.thin.report()
    }

    /// Adds what another tally counted.
    pub fn add(&mut self, other: &Tally) {
        self.pairs += other.pairs;
        self.accepted += other.accepted;
        self.items += other.items;
        self.most_items = self.most_items.max(other.most_items);
        self.most_tokens = self.most_tokens.max(other.most_tokens);
        self.deepest_owner = self.deepest_owner.max(other.deepest_owner);
        self.reordered += other.reordered;
        self.in_later_clauses += other.in_later_clauses;
        counts::add(&mut self.cased, &other.cased);
        self.thin.add(&other.thin);
        counts::add(&mut self.codes, &other.codes);
        counts::add(&mut self.refusals, &other.refusals);
        counts::add(&mut self.kinds, &other.kinds);
    }

    fn refusal(&mut self, refusal: Refusal) {
        count_refusal(&mut self.refusals, refusal);
    }

    fn sheet(&mut self, sheet: &Sheet) {
        self.most_tokens = self.most_tokens.max(sheet.tokens.len());
        for token in &sheet.tokens {
            *self.kinds.entry(token.kind).or_default() += 1;
        }
    }

    /// Judges one case and counts it. Answers the list, or the refusal.
    pub fn take(&mut self, case: &Case) -> Result<Result<Vec<Item>, Refusal>, Difference> {
        self.pairs += 1;
        let answer = judge(&case.statement, &case.schema)?;
        let read = answer.as_ref().map(|_| ()).map_err(|refusal| *refusal);
        if case.expected.is_some_and(|expected| expected != read) {
            let expected = case.expected;
            return Err(Difference(format!("read as {read:?}, made to be {expected:?}")));
        }
        if let Ok(sheet) = read_statement(&case.statement) {
            self.sheet(&sheet);
        }
        if let Ok(sheet) = read_schema(&case.schema) {
            self.sheet(&sheet);
        }
        self.thin.take(case, read)?;
        match &answer {
            Ok(items) => self.list(case, items)?,
            Err(refusal) => self.refusal(*refusal),
        }
        Ok(answer)
    }

    fn list(&mut self, case: &Case, items: &[Item]) -> Result<(), Difference> {
        self.accepted += 1;
        self.items += items.len() as u64;
        self.most_items = self.most_items.max(items.len());
        self.reordered += u64::from(in_margin(items) != items);
        let (statement, schema) = read_pair(&case.statement, &case.schema).expect("accepted");
        for item in items {
            let depth = statement.tokens[item.owner as usize].depth;
            self.deepest_owner = self.deepest_owner.max(depth);
            self.in_later_clauses += u64::from(item.clause > 0);
            *self.codes.entry(item.code).or_default() += 1;
        }
        for cased in cased(&statement, &schema, items) {
            *self.cased.entry(cased).or_default() += 1;
        }
        self.lent_lengths(&statement, &schema, items)
    }

    /// 14, 15 and 16 where the lent lengths are just too short, and not where
    /// they just do.
    fn lent_lengths(
        &mut self,
        statement: &Sheet,
        schema: &Sheet,
        items: &[Item],
    ) -> Result<(), Difference> {
        let count = items.len();
        let message = |k, text_len| message_of(statement, schema, items, k, text_len);
        let none = message(count, usize::MAX).expect_err("no such item");
        let last = count.checked_sub(1).map(|k| {
            let length = message(k, usize::MAX).map_or(0, |text| text.len());
            (message(k, length), message(k, length - 1))
        });
        self.refusal(none);
        if let Some((fits, Err(short))) = last {
            let list_short = fit_list(items.to_vec(), count * ITEM_WIDTH - 1);
            let list_fits = fit_list(items.to_vec(), count * ITEM_WIDTH);
            let (Ok(_), Ok(_), Err(too_many)) = (fits, list_fits, list_short) else {
                return Err(Difference("a lent length was judged wrongly".into()));
            };
            self.refusal(short);
            self.refusal(too_many);
        }
        Ok(())
    }
}

/// Runs the limits and `pairs` generated pairs. A difference stops it.
pub fn run(seed: u64, pairs: u64) -> Result<Tally, String> {
    let mut tally = Tally::default();
    let generated = (0..pairs).map(|number| (format!("pair {number}"), case(seed, number)));
    let limits = limits::cases().into_iter().map(|case| ("limits".to_owned(), case));
    for (what, case) in limits.chain(generated) {
        if let Err(Difference(difference)) = tally.take(&case) {
            return Err(format!("{what}: {}\n{}", cut(&difference), shrunk(&case, again)));
        }
    }
    Ok(tally)
}

/// Judges a pair of which nothing is known.
fn again(statement: &[u8], schema: &[u8]) -> Result<(), Difference> {
    let (statement, schema) = (statement.to_vec(), schema.to_vec());
    Tally::default().take(&Case { statement, schema, expected: None }).map(|_| ())
}

/// The most characters of a difference that are shown; sheets follow it.
const SHOWN: usize = 2_000;

pub(crate) fn cut(difference: &str) -> String {
    difference.chars().take(SHOWN).collect()
}

/// The smallest sheets found that `judge` still finds to differ, or the case
/// as it is.
pub fn shrunk(case: &Case, judge: impl Fn(&[u8], &[u8]) -> Result<(), Difference>) -> String {
    let sheets = [(&case.statement[..], Which::Statement), (&case.schema[..], Which::Schema)];
    shrunk_sheets(sheets, |[statement, schema]| judge(statement, schema))
}

/// The same of so many sheets; each stays of its kind.
pub fn shrunk_sheets<const N: usize>(
    sheets: [(&[u8], Which); N],
    judge: impl Fn(&[Vec<u8>; N]) -> Result<(), Difference>,
) -> String {
    let trees = sheets.map(|(bytes, which)| match read_form(bytes, which) {
        Ok(sheet) => Tree::of(&sheet),
        Err(_) => Tree::leaf(which.first_kind(), 0),
    });
    let kinds = sheets.map(|(bytes, _)| SheetKind::of(bytes));
    for number in [Tree::raw, own_numbers] {
        let bytes = |trees: &[Tree; N]| {
            let mut kinds = kinds.into_iter();
            let mut kind = || kinds.next().expect("a kind for each");
            trees.each_ref().map(|tree| number(tree).in_kind(kind()).bytes())
        };
        let differs = |trees: &[Tree; N]| judge(&bytes(trees)).is_err();
        if differs(&trees) {
            let found = bytes(&smallest(trees.clone(), differs));
            let Err(Difference(what)) = judge(&found) else { continue };
            return format!("smallest: {what}\n{}", listings(found.iter().map(Vec::as_slice)));
        }
    }
    format!("not made smaller\n{}", listings(sheets.into_iter().map(|(bytes, _)| bytes)))
}

/// Every use of a name under a number of its own.
fn own_numbers(tree: &Tree) -> Raw {
    let mut raw = Raw::default();
    tree.write(&mut raw, &mut |names, text| {
        names.push(text.as_bytes().to_vec());
        names.len() - 1
    });
    raw
}

/// Each sheet as hex and as tokens.
pub fn listings<'a>(sheets: impl Iterator<Item = &'a [u8]>) -> String {
    sheets.map(|bytes| format!("{}\n{}", hex(bytes), show(bytes))).collect()
}

pub fn hex(bytes: &[u8]) -> String {
    bytes.iter().map(|byte| format!("{byte:02x}")).collect()
}
