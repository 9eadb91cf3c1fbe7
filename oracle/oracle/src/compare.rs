//! Holds 01's answers and 02's margin list, computed here, against the
//! published Rust.

use std::collections::HashMap;
use std::mem;

use cyrs_diag::{Diagnostic, DiagnosticsSink};
use cyrs_schema::{BuilderError, InMemorySchema, SchemaProvider};
use cyrs_sema::schema_aware::check_schema_aware;

use crate::decode;
use crate::items::{Item, items};
use crate::margin::in_margin;
use crate::messages::{length, pieces};
use crate::sheet::{Refusal, Sheet, Which, read_form, read_schema, read_statement};
use crate::store::{MOST_PARAMETERS, Store, in_memory, store};
use crate::store_answers::{digest, endpoints, sorted_names};

/// The Rust writes all messages of a list at once; above this many bytes it
/// is not asked.
const MOST_MESSAGE_BYTES: usize = 1 << 30;

/// What differed, in words.
#[derive(Clone, Debug, PartialEq, Eq)]
pub struct Difference(pub String);

pub(crate) fn differs<T>(what: String) -> Result<T, Difference> {
    Err(Difference(what))
}

/// Both sheets, or the first refusal: the statement's before the schema's.
pub fn read_pair(statement: &[u8], schema: &[u8]) -> Result<(Sheet, Sheet), Refusal> {
    Ok((read_statement(statement)?, read_schema(schema)?))
}

/// Everything that can be held against the Rust for two sheets. Answers the
/// list, or the refusal.
pub fn judge(statement: &[u8], schema: &[u8]) -> Result<Result<Vec<Item>, Refusal>, Difference> {
    let schema = judge_schema(schema)?;
    match read_statement(statement).and_then(|statement| Ok((statement, schema?))) {
        Ok((statement, schema)) => list(&statement, &schema).map(Ok),
        Err(refusal) => Ok(Err(refusal)),
    }
}

/// Everything that can be held against `InMemorySchema` and its builder.
pub fn judge_schema(bytes: &[u8]) -> Result<Result<Sheet, Refusal>, Difference> {
    let read = read_schema(bytes);
    if let Ok(form) = read_form(bytes, Which::Schema) {
        builder(&form, read.as_ref().err().copied())?;
    }
    if let Ok(sheet) = &read {
        store_answers(sheet)?;
    }
    Ok(read)
}

/// The list, after the Rust gave the same: in the check's order, clause by
/// clause, and in the margin list's order.
pub fn list(statement: &Sheet, schema: &Sheet) -> Result<Vec<Item>, Difference> {
    let ours = items(statement, schema);
    let margin = in_margin(&ours);
    rearranged(&ours, &margin)?;
    let bytes: usize =
        ours.iter().map(|item| length(&pieces(statement, schema, item, u32::MAX))).sum();
    if bytes > MOST_MESSAGE_BYTES {
        eprintln!("not held against the Rust: its messages would take {bytes} bytes");
        return Ok(ours);
    }
    let message = |item: &Item| pieces(statement, schema, item, MOST_PARAMETERS).concat();
    let mut rust = rust_list(statement, schema)?;
    same("item", &ours, &rust, message)?;
    same_clauses(&ours, &rust_clauses(statement, schema)?)?;
    rust.sort_by_key(start);
    same("margin item", &margin, &rust, message)?;
    Ok(ours)
}

/// Code, span and message of each, and how many there are.
fn same(
    what: &str,
    ours: &[Item],
    rust: &[Diagnostic],
    message: impl Fn(&Item) -> String,
) -> Result<(), Difference> {
    for (k, (item, theirs)) in ours.iter().zip(rust).enumerate() {
        let message = message(item);
        let end = u32::from(theirs.span.end());
        let other = (theirs.code as u32, start(theirs), end, theirs.message.as_str());
        if (item.code, item.start, item.end, message.as_str()) != other {
            return differs(format!("{what} {k}: ours {item:?} {message:?}, the Rust {other:?}"));
        }
    }
    if ours.len() != rust.len() {
        let (a, b) = (ours.len(), rust.len());
        let first = a.min(b);
        let (x, y) = (ours.get(first), rust.get(first));
        return differs(format!("01 has {a} items, the Rust {b}; first beyond: {x:?} {y:?}"));
    }
    Ok(())
}

fn start(diagnostic: &Diagnostic) -> u32 {
    u32::from(diagnostic.span.start())
}

/// The clause number of each, in the check's order.
fn same_clauses(ours: &[Item], rust: &[u32]) -> Result<(), Difference> {
    let both = |k: usize| (ours.get(k).map(|item| item.clause), rust.get(k).copied());
    let mut clauses = (0..ours.len().max(rust.len())).map(both);
    match clauses.find(|(clause, theirs)| clause != theirs) {
        Some(pair) => differs(format!("an item's clause, 02's and the Rust's: {pair:?}")),
        None => Ok(()),
    }
}

/// Whether a margin list has every item of the list once and nothing else, by
/// start, and equal starts in the list's order. No two items are alike, so an
/// item has one place in the list, and by start and place the margin list rises.
fn rearranged(list: &[Item], margin: &[Item]) -> Result<(), Difference> {
    let places: HashMap<_, usize> = list.iter().map(Item::numbers).zip(0..).collect();
    let place = |item: &Item| (item.start, places.get(&item.numbers()).copied());
    let found: Vec<(u32, Option<usize>)> = margin.iter().map(place).collect();
    let foreign = found.iter().find(|(_, place)| place.is_none());
    let falls = found.windows(2).find(|two| two[0] >= two[1]);
    if margin.len() != list.len() || foreign.is_some() || falls.is_some() {
        let sizes = [list.len(), margin.len()];
        let what = format!("margin list: of {sizes:?} items, by start and place");
        return differs(format!("{what}, not in the list {foreign:?}, not rising {falls:?}"));
    }
    Ok(())
}

/// The published check on the decoded statement and store.
fn rust_list(statement: &Sheet, schema: &Sheet) -> Result<Vec<Diagnostic>, Difference> {
    let mut sink = DiagnosticsSink::default();
    check_schema_aware(&decode::statement(statement), &provider(schema)?, &mut sink);
    Ok(sink.list)
}

/// The clause of each diagnostic: the published check on every clause alone.
fn rust_clauses(statement: &Sheet, schema: &Sheet) -> Result<Vec<u32>, Difference> {
    let provider = provider(schema)?;
    let mut alone = decode::statement(statement);
    let mut numbers = Vec::new();
    for (clause, number) in mem::take(&mut alone.clauses).into_iter().zip(0..) {
        let mut sink = DiagnosticsSink::default();
        alone.clauses = vec![clause];
        check_schema_aware(&alone, &provider, &mut sink);
        numbers.extend(sink.list.iter().map(|_| number));
    }
    Ok(numbers)
}

fn provider(schema: &Sheet) -> Result<Store, Difference> {
    store(schema).or_else(|error| differs(format!("01 accepts, the builder says {error}")))
}

/// 10, 11, 12 against the builder: the kind and the name of its duplicate.
fn builder(sheet: &Sheet, refusal: Option<Refusal>) -> Result<(), Difference> {
    let ours = refusal.filter(|refusal| refusal.number <= 12).map(|refusal| {
        let declared = refusal.place as usize;
        (refusal.number, sheet.text(sheet.kids(declared)[0]).to_owned())
    });
    let theirs = in_memory(sheet).err().map(|error| match error {
        BuilderError::DuplicateLabel(name) => (10, name.to_string()),
        BuilderError::DuplicateRelType(name) => (11, name.to_string()),
        BuilderError::DuplicateParameter(name) => (12, name.to_string()),
    });
    if ours != theirs {
        return differs(format!("01 refuses {ours:?}, the builder {theirs:?}"));
    }
    Ok(())
}

/// Digest, names in order and endpoints against `InMemorySchema`.
fn store_answers(sheet: &Sheet) -> Result<(), Difference> {
    let Ok(rust) = in_memory(sheet) else {
        return differs("01 accepts, the builder does not".into());
    };
    if digest(sheet) != rust.schema_digest() {
        let (ours, theirs) = (digest(sheet), rust.schema_digest());
        return differs(format!("digest: 01 {ours:?}, the Rust {theirs:?}"));
    }
    let parameters: Vec<String> = rust.parameters().map(|p| p.name.to_string()).collect();
    let texts = |names: Vec<smol_str::SmolStr>| names.iter().map(|n| n.to_string()).collect();
    let lists: [(u8, Vec<String>); 3] =
        [(101, texts(rust.label_names())), (102, texts(rust.rel_type_names())), (103, parameters)];
    for (kind, theirs) in lists {
        let ours: Vec<&str> = sorted_names(sheet, kind).iter().map(|n| name(sheet, *n)).collect();
        if ours != theirs {
            return differs(format!("names of kind {kind}: 01 {ours:?}, the Rust {theirs:?}"));
        }
    }
    let unknown = "no such type".to_owned();
    sheet.names.iter().chain([&unknown]).try_for_each(|text| endpoints_of(sheet, &rust, text))
}

fn name(sheet: &Sheet, number: u32) -> &str {
    &sheet.names[number as usize]
}

fn endpoints_of(sheet: &Sheet, rust: &InMemorySchema, text: &str) -> Result<(), Difference> {
    let theirs = rust.relationship_endpoints(text);
    let ours = endpoints(sheet, text.as_bytes());
    let equal = ours.len() == theirs.len()
        && ours.iter().zip(&theirs).all(|([start, end], pair)| {
            pair.from == *name(sheet, *start) && pair.to == *name(sheet, *end)
        });
    if !equal {
        return differs(format!("endpoints of {text:?}: 01 {ours:?}, the Rust {theirs:?}"));
    }
    Ok(())
}

#[cfg(test)]
mod tests {
    use super::*;

    /// The first item of a clause, from that start on.
    fn item(clause: u32, start: u32) -> Item {
        Item { code: 3001, start, end: 90, owner: clause + 4, stage: 0, ordinal: 0, clause }
    }

    #[test]
    fn only_the_stable_order_by_start_is_a_margin_list() {
        let list @ [a, b, c, d] = [item(0, 7), item(1, 0), item(2, 7), item(3, 0)];
        assert_eq!(rearranged(&list, &in_margin(&list)), Ok(()));
        assert_eq!(rearranged(&list, &[b, d, a, c]), Ok(()));
        let others: [&[Item]; 8] = [
            &list,
            &[d, b, a, c],
            &[b, d, c, a],
            &[a, c, b, d],
            &[b, d, a],
            &[b, d, a, a],
            &[b, d, a, c, c],
            &[b, d, a, Item { owner: 9, ..c }],
        ];
        for other in others {
            assert!(rearranged(&list, other).is_err(), "{other:?}");
        }
    }

    #[test]
    fn a_wrong_clause_number_differs() {
        let list = [item(0, 7), item(1, 0)];
        assert_eq!(same_clauses(&list, &[0, 1]), Ok(()));
        assert!(same_clauses(&list, &[0, 0]).is_err());
        assert!(same_clauses(&list, &[0]).is_err());
    }
}
