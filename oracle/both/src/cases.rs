//! The pairs of a run: the oracle's, and beside them bytes at random, sheets
//! cut or lengthened, and now and then every prefix of both sheets of a pair, as
//! they are and in the thin kind.

use oracle::grammar::RULES;
use oracle::rng::Rng;
use oracle::run::{Case, case};
use oracle::sheet::SheetKind;
use oracle::thin::{thin_schema, thin_statement};
use oracle::tree::Raw;

/// One pair in so many is not the oracle's.
const OTHERWISE: u64 = 16;
/// After one pair in so many every prefix of a pair follows.
const PREFIXES: u64 = 8_192;
/// Bytes of both sheets of such a pair.
const SMALL: usize = 400;

/// The `number`-th pair of a seed, and what follows it.
pub fn cases(seed: u64, number: u64) -> Vec<Case> {
    let found = case(seed, number);
    let mut rng = Rng::new(!seed, number);
    if number.is_multiple_of(PREFIXES) {
        let small = |case: &Case| case.statement.len() + case.schema.len() <= SMALL;
        let valid = |case: &Case| case.expected == Some(Ok(()));
        let mut others = (0..).map(|more| case(!seed, number + more));
        let other = others.find(|case| valid(case) && small(case)).into_iter();
        let cut = other.flat_map(|case| [prefixes(&case), prefixes(&thinned(&case))].concat());
        return [found].into_iter().chain(cut).collect();
    }
    match number % OTHERWISE {
        15 => vec![otherwise(found, &mut rng)],
        _ => vec![found],
    }
}

/// An accepted pair with both sheets in the thin kind.
fn thinned(case: &Case) -> Case {
    let statement = thin_statement(&case.statement, usize::MAX).expect("an accepted statement");
    let schema = thin_schema(&case.schema, usize::MAX).expect("an accepted schema");
    Case::accepted(statement, schema)
}

/// Every prefix of the statement, and every prefix of the schema.
fn prefixes(whole: &Case) -> Vec<Case> {
    let of_statement = (0..whole.statement.len())
        .map(|length| Case { statement: whole.statement[..length].to_vec(), ..whole.clone() });
    let of_schema = (0..whole.schema.len())
        .map(|length| Case { schema: whole.schema[..length].to_vec(), ..whole.clone() });
    of_statement.chain(of_schema).map(|case| Case { expected: None, ..case }).collect()
}

/// One sheet of a pair, or both, in another way.
fn otherwise(case: Case, rng: &mut Rng) -> Case {
    let Case { mut statement, mut schema, .. } = case;
    let which = rng.below(3);
    if which != 0 {
        statement = other_sheet(statement, rng);
    }
    if which != 1 {
        schema = other_sheet(schema, rng);
    }
    Case { statement, schema, expected: None }
}

fn other_sheet(mut sheet: Vec<u8>, rng: &mut Rng) -> Vec<u8> {
    match rng.below(4) {
        0 => noise(rng.below(80), rng),
        1 => random_tokens(rng),
        2 => {
            sheet.truncate(rng.below(sheet.len() + 1));
            sheet
        }
        _ => {
            sheet.extend(noise(1 + rng.below(40), rng));
            sheet
        }
    }
}

fn noise(length: usize, rng: &mut Rng) -> Vec<u8> {
    (0..length).map(|_| rng.draw() as u8).collect()
}

/// A sheet of either kind whose sizes and ends hold, of tokens and names at random.
fn random_tokens(rng: &mut Rng) -> Vec<u8> {
    let mut raw = Raw::default().in_kind(*rng.pick(&SheetKind::ALL));
    let first = *rng.pick(&[90, 90, 100, 100, 13]);
    raw.tokens.push((first, rng.below(4) as u32));
    for _ in 0..rng.below(30) {
        let kind = rng.pick(RULES).kind;
        raw.tokens.push((kind, rng.below(4) as u32));
    }
    for _ in 0..rng.below(6) {
        let length = rng.below(4);
        raw.names.push(noise(length, rng).iter().map(|byte| byte >> rng.below(2)).collect());
    }
    raw.bytes()
}
