//! The items of a check as Rust values, with their messages, in the check's order and in that of the margin list.
use crate::operations::{check, margin_list, message, with_room};
use crate::refusal::Refusal;
use std::collections::HashMap;
use std::fmt;

/// Where something stands in the statement's source, from `start` up to `end`.
#[derive(Clone, Copy, Debug, Default, PartialEq, Eq, Hash)]
pub struct Span {
    pub start: u32,
    pub end: u32,
}

/// One breach. Displayed it is code, start, end and owner, as the program prints them: `E3004 6 37 4`.
#[derive(Clone, Copy, Debug, PartialEq, Eq, Hash)]
pub struct Diagnostic {
    /// 3001 for E3001; 3001 to 3004, 3006 to 3009, 4023.
    pub code: u32,
    /// 0, 0 for calls of functions and for labels of a SET.
    pub span: Span,
    /// The token that the breach is about.
    pub owner: u32,
    pub stage: u32,
    /// Which name or key of the owner it is, from 0.
    pub ordinal: u32,
    /// The number of the clause that the owner stands in, from 0.
    pub clause: u32,
}

/// Numbers of an item.
const WIDTH: usize = 7;

impl Diagnostic {
    /// An item as the check writes it: code, start, end, owner, stage, ordinal, clause.
    pub fn from_numbers(numbers: [u32; WIDTH]) -> Self {
        let [code, start, end, owner, stage, ordinal, clause] = numbers;
        Diagnostic { code, span: Span { start, end }, owner, stage, ordinal, clause }
    }
}

impl fmt::Display for Diagnostic {
    fn fmt(&self, f: &mut fmt::Formatter<'_>) -> fmt::Result {
        let Diagnostic { code, span, owner, .. } = self;
        write!(f, "E{code} {} {} {owner}", span.start, span.end)
    }
}

/// Every breach of a statement. As an iterator it gives each one with its message; a message costs a check.
#[derive(Clone, Debug)]
pub struct Diagnostics<'a> {
    statement: &'a [u8],
    schema: &'a [u8],
    items: Vec<Diagnostic>,
    /// The number that each item has in the check's list, for its message.
    numbers: Vec<u32>,
    next: usize,
    text: Vec<u8>,
}

/// The breaches in the check's order. Refusals: the statement's, the schema's.
pub fn diagnostics<'a>(statement: &'a [u8], schema: &'a [u8]) -> Result<Diagnostics<'a>, Refusal> {
    let items = listed(statement, schema, check)?;
    let numbers = (0..items.len() as u32).collect();
    Ok(Diagnostics { statement, schema, items, numbers, next: 0, text: Vec::new() })
}

/// The same breaches as a reader meets them from left to right: in the order of [`margin_list`], each with its own
/// message. Refusals: the statement's, the schema's.
pub fn margin<'a>(statement: &'a [u8], schema: &'a [u8]) -> Result<Diagnostics<'a>, Refusal> {
    let checked = diagnostics(statement, schema)?;
    let items = listed(statement, schema, margin_list)?;
    // A rearrangement, and no two items are alike: each is found, and under one number.
    let number: HashMap<_, _> = checked.items.iter().zip(0..).collect();
    let numbers = items.iter().map(|item| number[item]).collect();
    Ok(Diagnostics { items, numbers, ..checked })
}

/// All items of an operation, with a list that always suffices: there are no more items than tokens, which is proved
/// (`few`).
fn listed(
    statement: &[u8],
    schema: &[u8],
    ask: impl Fn(&[u8], &[u8], &mut [u32]) -> Result<u32, Refusal>,
) -> Result<Vec<Diagnostic>, Refusal> {
    let mut list = vec![0; WIDTH * tokens(statement)];
    let count = ask(statement, schema, &mut list)? as usize;
    let items = list.chunks_exact(WIDTH).take(count);
    let numbers = |item: &[u32]| item.try_into().expect("chunks of seven");
    Ok(items.map(|item| Diagnostic::from_numbers(numbers(item))).collect())
}

/// The first u32 of a sheet, or what an accepted sheet has at most.
fn tokens(sheet: &[u8]) -> usize {
    let first = sheet.first_chunk().map_or(0, |bytes| u32::from_le_bytes(*bytes));
    first.min(crate::encode::MAX_TOKENS) as usize
}

impl Diagnostics<'_> {
    /// All of them, without messages.
    pub fn items(&self) -> &[Diagnostic] {
        &self.items
    }
}

impl Iterator for Diagnostics<'_> {
    type Item = (Diagnostic, String);

    fn next(&mut self) -> Option<Self::Item> {
        let item = *self.items.get(self.next)?;
        let text = asked(self.statement, self.schema, self.numbers[self.next], &mut self.text);
        self.next += 1;
        Some((item, text.expect("sheets that were accepted, and an item of their list")))
    }

    fn size_hint(&self) -> (usize, Option<usize>) {
        let left = self.items.len() - self.next;
        (left, Some(left))
    }
}

impl ExactSizeIterator for Diagnostics<'_> {}

/// The message of item `k`, however long: it can reach some 134 million bytes (M-13). Refusals: the statement's, the
/// schema's, 15.
pub fn message_text(statement: &[u8], schema: &[u8], k: u32) -> Result<String, Refusal> {
    asked(statement, schema, k, &mut Vec::new())
}

fn asked(statement: &[u8], schema: &[u8], k: u32, buffer: &mut Vec<u8>) -> Result<String, Refusal> {
    let length = with_room(buffer, |text| message(statement, schema, k, text))?;
    let text = std::str::from_utf8(&buffer[..length]);
    Ok(text.expect("a message is UTF-8, by the theorem message-utf8").to_owned())
}
