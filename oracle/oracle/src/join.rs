//! Request 2.4 from document 02: two statement sheets joined to one. It has the
//! clauses of the first, then those of the second, whose names are numbered
//! after the first's.

use crate::sheet::{MAX_NAMES, MAX_TEXT, MAX_TOKENS, Refusal, Sheet, fits, read_statement};

const STATEMENT: u8 = 90;
const NAME: u8 = 50;

/// The most tokens, names and bytes of text of a sheet.
const LIMITS: [u32; 3] = [MAX_TOKENS, MAX_NAMES, MAX_TEXT];

/// The joined sheet, with as many bytes lent as `room` says.
pub fn join_statements(first: &[u8], second: &[u8], room: usize) -> Result<Vec<u8>, Refusal> {
    let first = read_statement(first)?;
    let second = read_second(second)?;
    within_limits(joined_sizes(&first, &second))?;
    let sheet = joined(&first, &second);
    fits(sheet.len(), room).map(|()| sheet)
}

/// The second is a statement sheet too, and sheet 2 in a refusal.
fn read_second(bytes: &[u8]) -> Result<Sheet, Refusal> {
    read_statement(bytes).map_err(|refusal| Refusal { sheet: 2, ..refusal })
}

/// Tokens, names and bytes of text.
fn sizes(sheet: &Sheet) -> [u32; 3] {
    [sheet.tokens.len(), sheet.names.len(), text(sheet).len()].map(|size| size as u32)
}

/// The same of the joined sheet, whose token 0 stands for two.
fn joined_sizes(first: &Sheet, second: &Sheet) -> [u32; 3] {
    let [[t, m, b], [more_t, more_m, more_b]] = [first, second].map(sizes);
    [t + more_t - 1, m + more_m, b + more_b]
}

/// 20: the joined sheet would pass a size limit.
fn within_limits(sizes: [u32; 3]) -> Result<(), Refusal> {
    let passes = sizes.iter().zip(LIMITS).any(|(size, limit)| *size > limit);
    if passes { Err(Refusal::neither(20)) } else { Ok(()) }
}

fn joined(first: &Sheet, second: &Sheet) -> Vec<u8> {
    let [_, names, bytes] = sizes(first);
    let clauses = first.value(0) + second.value(0);
    let mut tokens = vec![(STATEMENT, clauses)];
    tokens.extend(clause_tokens(first, 0));
    tokens.extend(clause_tokens(second, names));
    let mut ends = ends_from(first, 0);
    ends.extend(ends_from(second, bytes));
    written(&tokens, &ends, &(text(first) + &text(second)))
}

/// The tokens of all clauses; so many names stand before the sheet's own.
fn clause_tokens(sheet: &Sheet, names_before: u32) -> Vec<(u8, u32)> {
    let tokens = sheet.tokens[1..].iter();
    let moved = tokens.map(|token| match token.kind {
        NAME => (NAME, token.value + names_before),
        kind => (kind, token.value),
    });
    moved.collect()
}

/// Where each name ends, when the first begins at a place.
fn ends_from(sheet: &Sheet, start: u32) -> Vec<u32> {
    let mut end = start;
    let after = |name: &String| {
        end += name.len() as u32;
        end
    };
    sheet.names.iter().map(after).collect()
}

/// All names, one after another.
fn text(sheet: &Sheet) -> String {
    sheet.names.concat()
}

/// The three sizes, the kinds, the values, the ends, the text.
fn written(tokens: &[(u8, u32)], ends: &[u32], text: &str) -> Vec<u8> {
    let sizes = [tokens.len(), ends.len(), text.len()].map(|size| size as u32);
    let mut bytes: Vec<u8> = sizes.into_iter().flat_map(u32::to_le_bytes).collect();
    bytes.extend(tokens.iter().map(|(kind, _)| *kind));
    bytes.extend(tokens.iter().flat_map(|(_, value)| value.to_le_bytes()));
    bytes.extend(ends.iter().flat_map(|end| end.to_le_bytes()));
    bytes.extend(text.as_bytes());
    bytes
}
