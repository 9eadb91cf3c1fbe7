//! A seeded sample of statements to join with the answers, as `sample` has it
//! of pairs. The README gives the layout.

use crate::compare::Difference;
use crate::join::join_statements;
use crate::join_run::JoinTally;
use crate::joins::{JoinAnswer, JoinCase, Way, join_case, small, stored_limits};
use crate::sample::{outcome, put, put_all, put_bytes};
use crate::sheet::Refusal;

/// "NMJ1".
const MAGIC: u32 = 0x314a_4d4e;

/// Number of records of the stored sample.
pub const JOINS: usize = 120;

/// How long both sheets of a case may be together that is not at a limit.
const MOST_BYTES: usize = 520;

/// The longest buffer that is lent, which the longest sheet fills.
const LONGEST: usize = 57_356;

/// The cases of a sample: the short ones, some at the limits, and small ones of
/// the seed.
pub fn cases(seed: u64, joins: usize) -> Vec<JoinCase> {
    let is_small = |case: &JoinCase| case.first.len() + case.second.len() <= MOST_BYTES;
    let generated = (0..).map(|number| join_case(seed, number)).filter(is_small);
    let small = small().into_iter().filter(is_small);
    small.chain(stored_limits()).chain(generated).take(joins).collect()
}

/// What never comes in a sample: a refusal, a way, a limit, and among the
/// answers that are stored 16.
pub fn missing(seed: u64, joins: usize) -> Result<Vec<String>, String> {
    let mut tally = JoinTally::default();
    let cases = cases(seed, joins);
    for case in &cases {
        let _sheet = tally.take(case).map_err(|Difference(what)| what)?;
    }
    let mut missing = tally.missing();
    let short = |(number, case): (usize, &JoinCase)| stored(number, case).1 == SHORT;
    if !cases.iter().enumerate().any(short) {
        missing.push("a stored join whose buffer is too short".into());
    }
    Ok(missing)
}

/// The file of a sample.
pub fn sample(seed: u64, joins: usize) -> Vec<u8> {
    let cases = cases(seed, joins);
    let mut out = Vec::new();
    put_all(&mut out, &[MAGIC, cases.len() as u32]);
    cases.iter().enumerate().for_each(|(number, case)| record(&mut out, number, case));
    out
}

fn record(out: &mut Vec<u8>, number: usize, case: &JoinCase) {
    let JoinCase { first, second, .. } = case;
    put_bytes(out, first);
    put_bytes(out, second);
    let (room, sheet) = stored(number, case);
    put(out, room as u32);
    outcome(out, sheet.as_ref().map(Vec::len).map_err(|refusal| *refusal));
    out.extend(sheet.unwrap_or_default());
}

const SHORT: JoinAnswer = Err(Refusal::neither(16));

/// The length of the buffer lent, and the answer. By the record's number the
/// buffer is exactly as long as the sheet, longer, one byte short or empty; that
/// of a sheet at a limit is as long as it.
fn stored(number: usize, case: &JoinCase) -> (usize, JoinAnswer) {
    let joined = |room| join_statements(&case.first, &case.second, room);
    let length = joined(usize::MAX).map_or(case.first.len() + case.second.len(), |s| s.len());
    let room = match number % 8 {
        _ if case.way == Way::AtLimit => length,
        1 | 5 => length + number % 7,
        3 => length.saturating_sub(1),
        6 => 0,
        _ => length,
    };
    let room = room.min(LONGEST);
    (room, joined(room))
}
