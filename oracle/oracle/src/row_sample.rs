//! A seeded sample of comma-separated texts with the answers of both
//! operations on them, as `sample` has it of pairs. The README gives the
//! layout.

use crate::compare::Difference;
use crate::rows::{Broken, next_row, row_statement};
use crate::sample::{outcome, put, put_all, put_bytes};
use crate::text_run::TextTally;
use crate::texts::{TextCase, small, stored_limits, text_case};

const MAGIC: u32 = 0x3152_4d4e;

/// Number of generated texts of the stored sample.
pub const TEXTS: u64 = 80;

/// What begins at a place, by number.
const WHOLE: u32 = 0;
const END: u32 = 1;
const BROKEN: u32 = 2;

/// The texts of a sample: the short ones, some at the limits, and the first of
/// the seed.
pub fn cases(seed: u64, texts: u64) -> Vec<TextCase> {
    let generated = (0..texts).map(|number| text_case(seed, number));
    small().into_iter().chain(stored_limits()).chain(generated).collect()
}

/// What never comes in a sample: a refusal, a kind of cell, a way.
pub fn missing(seed: u64, texts: u64) -> Result<Vec<String>, String> {
    let mut tally = TextTally::default();
    for case in cases(seed, texts) {
        let _sheet = tally.take(&case).map_err(|Difference(what)| what)?;
    }
    Ok(tally.missing())
}

/// The file of a sample.
pub fn sample(seed: u64, texts: u64) -> Vec<u8> {
    let cases = cases(seed, texts);
    let mut out = Vec::new();
    put_all(&mut out, &[MAGIC, cases.len() as u32]);
    cases.iter().for_each(|case| record(&mut out, case));
    out
}

fn record(out: &mut Vec<u8>, case: &TextCase) {
    let TextCase { text, label, row, .. } = case;
    put_bytes(out, text);
    put_bytes(out, label);
    put(out, *row);
    let sheet = row_statement(text, label, *row, usize::MAX);
    outcome(out, sheet.as_ref().map(Vec::len).map_err(|refusal| *refusal));
    out.extend(sheet.unwrap_or_default());
    let lines = lines(text);
    put(out, lines.len() as u32);
    lines.iter().for_each(|line| put_all(out, line));
}

/// From row to row: each place, and what begins there, up to the end or the
/// break.
fn lines(text: &[u8]) -> Vec<[u32; 5]> {
    let mut lines = Vec::new();
    let mut at = 0;
    loop {
        let place = at as u32;
        match next_row(text, at) {
            Ok(Some(row)) => {
                let [stop, next, cells] = [row.stop, row.next, row.fields.len()].map(|n| n as u32);
                lines.push([place, WHOLE, stop, next, cells]);
                at = row.next;
            }
            Ok(None) => {
                lines.push([place, END, 0, 0, 0]);
                return lines;
            }
            Err(Broken(byte)) => {
                lines.push([place, BROKEN, byte as u32, 0, 0]);
                return lines;
            }
        }
    }
}
