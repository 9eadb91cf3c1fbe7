//! The operations of document 01 and 02's margin list, one function each, with
//! the refusals that depend on lent lengths. Every list and store answer is
//! first held against the Rust; a difference there is a panic.

use crate::compare::{Difference, judge, judge_schema, read_pair};
use crate::items::{ITEM_WIDTH, Item};
use crate::margin::in_margin;
use crate::messages::{length, pieces};
use crate::sheet::{self, Refusal, Sheet, fits};
use crate::store_answers;

const BEFORE: &str = "the Rust differs from document 01";

fn held<T>(answer: Result<T, Difference>) -> T {
    answer.unwrap_or_else(|Difference(what)| panic!("{BEFORE}: {what}"))
}

/// Reading a statement sheet; accepted, nothing is written.
pub fn read_statement(bytes: &[u8]) -> Result<usize, Refusal> {
    sheet::read_statement(bytes).map(|_| 0)
}

/// Reading a schema sheet; accepted, nothing is written.
pub fn read_schema(bytes: &[u8]) -> Result<usize, Refusal> {
    sheet::read_schema(bytes).map(|_| 0)
}

/// The items, with `list_len` u32 lent for them.
pub fn check(statement: &[u8], schema: &[u8], list_len: usize) -> Result<Vec<Item>, Refusal> {
    held(judge(statement, schema)).and_then(|items| fit_list(items, list_len))
}

/// The same items in the margin list's order, with the same refusals.
pub fn margin_list(statement: &[u8], schema: &[u8], list_len: usize) -> Result<Vec<Item>, Refusal> {
    check(statement, schema, list_len).map(|items| in_margin(&items))
}

/// 14: more items than whole ones fit in the list.
pub fn fit_list(items: Vec<Item>, list_len: usize) -> Result<Vec<Item>, Refusal> {
    if items.len() > list_len / ITEM_WIDTH { Err(Refusal::neither(14)) } else { Ok(items) }
}

/// The message of item `k`, with `text_len` bytes lent for it.
pub fn message(
    statement: &[u8],
    schema: &[u8],
    k: usize,
    text_len: usize,
) -> Result<Vec<u8>, Refusal> {
    let items = held(judge(statement, schema))?;
    let (statement, schema) = read_pair(statement, schema)?;
    message_of(&statement, &schema, &items, k, text_len)
}

/// The message of item `k` of a pair's items.
pub fn message_of(
    statement: &Sheet,
    schema: &Sheet,
    items: &[Item],
    k: usize,
    text_len: usize,
) -> Result<Vec<u8>, Refusal> {
    let item = items.get(k).ok_or(Refusal::neither(15))?;
    let pieces = pieces(statement, schema, item, u32::MAX);
    fits(length(&pieces), text_len)?;
    Ok(pieces.concat().into_bytes())
}

/// A schema that was accepted and held against `InMemorySchema`.
fn store(schema: &[u8]) -> Result<Sheet, Refusal> {
    held(judge_schema(schema))
}

fn names(schema: &[u8], kind: u8, places: usize) -> Result<Vec<u32>, Refusal> {
    names_of(&store(schema)?, kind, places)
}

/// The names of a kind of a schema that was read.
pub fn names_of(schema: &Sheet, kind: u8, places: usize) -> Result<Vec<u32>, Refusal> {
    let names = store_answers::sorted_names(schema, kind);
    fits(names.len(), places)?;
    Ok(names)
}

pub fn label_names(schema: &[u8], places: usize) -> Result<Vec<u32>, Refusal> {
    names(schema, 101, places)
}

pub fn rel_type_names(schema: &[u8], places: usize) -> Result<Vec<u32>, Refusal> {
    names(schema, 102, places)
}

pub fn parameter_names(schema: &[u8], places: usize) -> Result<Vec<u32>, Refusal> {
    names(schema, 103, places)
}

/// Pairs of name numbers, with `places` u32 lent for them.
pub fn relationship_endpoints(
    schema: &[u8],
    text: &[u8],
    places: usize,
) -> Result<Vec<[u32; 2]>, Refusal> {
    endpoints_of(&store(schema)?, text, places)
}

/// The endpoints of a text in a schema that was read.
pub fn endpoints_of(schema: &Sheet, text: &[u8], places: usize) -> Result<Vec<[u32; 2]>, Refusal> {
    let pairs = store_answers::endpoints(schema, text);
    fits(2 * pairs.len(), places)?;
    Ok(pairs)
}

pub fn schema_digest(schema: &[u8]) -> Result<[u8; 32], Refusal> {
    store(schema).map(|sheet| store_answers::digest(&sheet))
}

/// What 01's program lends.
pub const PROGRAM_ITEMS: usize = 512;
pub const PROGRAM_TEXT: usize = 16_384;

/// What 01's program prints for two sheets.
pub fn printed(statement: &[u8], schema: &[u8]) -> Vec<u8> {
    match check(statement, schema, PROGRAM_ITEMS * ITEM_WIDTH) {
        Ok(items) => printed_list(statement, schema, &items),
        Err(Refusal { number, sheet, place }) => {
            format!("refused {number} {sheet} {place}\n").into_bytes()
        }
    }
}

fn printed_list(statement: &[u8], schema: &[u8], items: &[Item]) -> Vec<u8> {
    let (statement, schema) = read_pair(statement, schema).expect("an accepted pair");
    let mut out = Vec::new();
    for (k, item) in items.iter().enumerate() {
        let Item { code, start, end, owner, .. } = item;
        out.extend(format!("E{code} {start} {end} {owner} ").bytes());
        let message = message_of(&statement, &schema, items, k, PROGRAM_TEXT);
        out.extend(message.unwrap_or_else(|_| b"refused 16".to_vec()));
        out.push(b'\n');
    }
    out.extend(format!("{} listed\n", items.len()).bytes());
    out
}
