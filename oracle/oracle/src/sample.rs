//! A seeded sample of pairs with their answers, for a replay that reads one
//! file from front to back. The README gives the layout.

use std::collections::BTreeSet;

use crate::answers::{self, schema_digest};
use crate::cased::{CASED, Cased, cased};
use crate::compare::{Difference, read_pair};
use crate::items::items;
use crate::run::{Case, Tally, in_cases, ordinary};
use crate::sheet::{Refusal, SheetKind, Which, read_schema};
use crate::thin_run::refusals_of_kinds;

/// "NMA2".
const MAGIC: u32 = 0x3241_4d4e;
const LONG_ENOUGH: usize = 1 << 24;

/// How long a sheet of the sample may be.
const MOST_BYTES: usize = 700;

/// Seed and number of pairs of the stored sample.
pub const SEED: u64 = 6;
pub const PAIRS: usize = 300;

/// The pairs of a sample: the worked example, small pairs of the seed with
/// names in other case, some that are refused for a thin sheet, then others, none
/// of them hostile.
pub fn cases(seed: u64, pairs: usize) -> Vec<Case> {
    let (statement, schema) = worked_example();
    let first = [Case::accepted(statement, schema)].into_iter();
    let generated = (0..).map(|number| ordinary(seed, number)).filter(is_small);
    let chosen = first.chain(of_each_sort(seed)).chain(of_each_refusal(seed));
    chosen.chain(generated).take(pairs).collect()
}

fn is_small(case: &Case) -> bool {
    case.statement.len().max(case.schema.len()) <= MOST_BYTES
}

/// Small ones of the pairs, each with something that those before it lack, until
/// there is as much of it as there can be.
fn of_each<K: Ord>(
    pairs: impl Iterator<Item = Case>,
    has: impl Fn(&Case) -> Vec<K>,
    all: usize,
) -> Vec<Case> {
    let mut seen = BTreeSet::new();
    let mut cases = Vec::new();
    for case in pairs.filter(is_small) {
        let before = seen.len();
        seen.extend(has(&case));
        if seen.len() > before {
            cases.push(case);
        }
        if seen.len() == all {
            break;
        }
    }
    cases
}

/// Pairs with names in other case, of each sort.
fn of_each_sort(seed: u64) -> Vec<Case> {
    of_each((0..).map(|number| in_cases(seed, number)), sorts_of, CASED.len())
}

/// Pairs that are refused for a thin sheet, of each number and sheet.
fn of_each_refusal(seed: u64) -> Vec<Case> {
    let all = [Which::Statement, Which::Schema].into_iter().flat_map(refusals_of_kinds);
    of_each((0..).map(|number| ordinary(!seed, number)), refused_thin, all.count())
}

fn refused_thin(case: &Case) -> Vec<(u32, u32)> {
    let Err(refusal) = read_pair(&case.statement, &case.schema) else { return Vec::new() };
    let key = (refusal.number, refusal.sheet);
    let sheet = if refusal.sheet == 1 { &case.statement } else { &case.schema };
    let thin = SheetKind::of(sheet) == SheetKind::Thin && refusal.number != 1;
    if thin { vec![key] } else { Vec::new() }
}

fn sorts_of(case: &Case) -> Vec<Cased> {
    let read = read_pair(&case.statement, &case.schema).ok();
    let of_sheets = |(statement, schema)| cased(&statement, &schema, &items(&statement, &schema));
    read.map_or(Vec::new(), of_sheets)
}

/// What never comes in a sample: a code, a refusal, a kind, a margin list in
/// another order, an item of a later clause, a sort of names in other case, a
/// refusal of a thin sheet, two kinds of sheets that go together.
pub fn missing(seed: u64, pairs: usize) -> Result<Vec<String>, String> {
    let mut tally = Tally::default();
    for case in cases(seed, pairs) {
        let _list = tally.take(&case).map_err(|Difference(what)| what)?;
    }
    Ok(tally.missing())
}

/// The file of a sample.
pub fn sample(seed: u64, pairs: usize) -> Vec<u8> {
    let mut out = Vec::new();
    put(&mut out, MAGIC);
    put(&mut out, pairs as u32);
    cases(seed, pairs).iter().for_each(|case| record(&mut out, case));
    out
}

pub(crate) fn put(out: &mut Vec<u8>, number: u32) {
    out.extend(number.to_le_bytes());
}

pub(crate) fn put_all(out: &mut Vec<u8>, numbers: &[u32]) {
    numbers.iter().for_each(|number| put(out, *number));
}

pub(crate) fn put_bytes(out: &mut Vec<u8>, bytes: &[u8]) {
    put(out, bytes.len() as u32);
    out.extend(bytes);
}

/// 0 and the count, or 1 and the refusal's three numbers.
pub(crate) fn outcome(out: &mut Vec<u8>, answer: Result<usize, Refusal>) {
    match answer {
        Ok(count) => put_all(out, &[0, count as u32]),
        Err(Refusal { number, sheet, place }) => put_all(out, &[1, number, sheet, place]),
    }
}

fn record(out: &mut Vec<u8>, case: &Case) {
    let Case { statement, schema, .. } = case;
    put_bytes(out, statement);
    put_bytes(out, schema);
    outcome(out, answers::read_statement(statement));
    outcome(out, answers::read_schema(schema));
    let list = answers::check(statement, schema, LONG_ENOUGH);
    outcome(out, list.as_ref().map(Vec::len).map_err(|refusal| *refusal));
    for (k, item) in list.unwrap_or_default().iter().enumerate() {
        put_all(out, &item.numbers());
        let message = answers::message(statement, schema, k, LONG_ENOUGH);
        put_bytes(out, &message.expect("an item's message"));
    }
    let margin = answers::margin_list(statement, schema, LONG_ENOUGH);
    margin.iter().flatten().for_each(|item| put_all(out, &item.numbers()));
    let digest = schema_digest(schema);
    outcome(out, digest.map(|digest| digest.len()));
    out.extend(digest.unwrap_or([0; 32]));
    store(out, schema);
}

/// The three name lists, then endpoints of a few texts; where the schema is
/// refused, their outcomes alone and no text.
fn store(out: &mut Vec<u8>, schema: &[u8]) {
    let lists = [answers::label_names, answers::rel_type_names, answers::parameter_names];
    for list in lists {
        let names = list(schema, LONG_ENOUGH);
        outcome(out, names.as_ref().map(Vec::len).map_err(|refusal| *refusal));
        put_all(out, &names.unwrap_or_default());
    }
    let texts = texts(schema);
    put(out, texts.len() as u32);
    for text in texts {
        put_bytes(out, &text);
        let pairs = answers::relationship_endpoints(schema, &text, LONG_ENOUGH);
        outcome(out, pairs.as_ref().map(Vec::len).map_err(|refusal| *refusal));
        put_all(out, &pairs.unwrap_or_default().concat());
    }
}

/// The first two RelTypes, an unknown text and one that is not UTF-8.
fn texts(schema: &[u8]) -> Vec<Vec<u8>> {
    let mut texts = vec![b"none".to_vec(), b"\xc0\x80".to_vec()];
    if let Ok(sheet) = read_schema(schema) {
        for token in sheet.kids_of_kind(0, 102).into_iter().take(2) {
            texts.push(sheet.text(sheet.kids(token)[0]).as_bytes().to_vec());
        }
    }
    texts
}

/// 01's worked example: both sheets.
pub fn worked_example() -> (Vec<u8>, Vec<u8>) {
    let encode = |text| crate::notation::encode(text).expect("a notation of ours");
    (
        encode(include_str!("../example/statement.txt")),
        encode(include_str!("../example/schema.txt")),
    )
}
