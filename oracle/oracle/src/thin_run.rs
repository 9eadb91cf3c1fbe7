//! The sheets of pairs converted to the thin kind: each answer held against what
//! reading answers, and against the same tokens and names written anew. The tally
//! fails where a kind of sheet, a conversion or a refusal never came.

use crate::compare::{Difference, differs};
use crate::counts::{self, Counts, Refusals, count_refusal};
use crate::joins::KINDS;
use crate::run::Case;
use crate::sheet::{Refusal, Sheet, SheetKind, Which, fits, read_schema, read_statement};
use crate::thin::{thin_schema, thin_statement};
use crate::tree::Raw;

/// The answer for a buffer that is long enough.
pub type ThinAnswer = Result<Vec<u8>, Refusal>;

/// Bytes of the longest thin sheet.
pub const LONGEST_THIN: usize = 55_308;

/// What came of thin sheets, and of sheets that were converted.
#[derive(Clone, Debug, Default)]
pub struct ThinTally {
    /// Accepted pairs, by the kinds of statement and schema.
    pub pairs: Counts<[SheetKind; 2]>,
    /// Refusals of pairs that are about a thin sheet.
    pub refused_thin: Refusals,
    /// Sheets converted, by number and kind.
    pub converted: Counts<(u32, SheetKind)>,
    /// Thin sheets that are the longest.
    pub longest: u64,
    /// Refusals of sheets to convert.
    pub refusals: Refusals,
}

/// Number and sheet of every refusal of the two converters. A schema has no token
/// deep enough for 7.
pub fn thin_refusals(which: Which) -> impl Iterator<Item = (u32, u32)> {
    let last = if which == Which::Schema { 13 } else { 9 };
    let numbers = (1..=last).filter(move |number| which == Which::Statement || *number != 7);
    numbers.map(move |number| (number, which.number())).chain([(16, 0)])
}

/// Those that tell of a kind: under 12 bytes a sheet has none.
pub fn refusals_of_kinds(which: Which) -> impl Iterator<Item = (u32, u32)> {
    thin_refusals(which).filter(|(number, _)| (2..=13).contains(number))
}

const BOTH: [Which; 2] = [Which::Statement, Which::Schema];

impl ThinTally {
    /// Counts a pair by its kinds, and converts both of its sheets; `read` is what
    /// reading them answered.
    pub fn take(&mut self, case: &Case, read: Result<(), Refusal>) -> Result<(), Difference> {
        let sheets = [&case.statement[..], &case.schema];
        let kinds = sheets.map(SheetKind::of);
        match read {
            Ok(()) => *self.pairs.entry(kinds).or_default() += 1,
            Err(refusal) if kinds[refusal.sheet as usize - 1] == SheetKind::Thin => {
                count_refusal(&mut self.refused_thin, refusal);
            }
            Err(_) => {}
        }
        BOTH.into_iter().zip(sheets).try_for_each(|(which, bytes)| self.convert(which, bytes))
    }

    fn convert(&mut self, which: Which, bytes: &[u8]) -> Result<(), Difference> {
        match judged(which, bytes)? {
            Ok(thin) => {
                *self.converted.entry((which.number(), SheetKind::of(bytes))).or_default() += 1;
                self.longest += u64::from(thin.len() == LONGEST_THIN);
                count_refusal(&mut self.refusals, Refusal::neither(16));
            }
            Err(refusal) => count_refusal(&mut self.refusals, refusal),
        }
        Ok(())
    }

    /// How many sheets were converted.
    pub fn sheets_converted(&self) -> u64 {
        self.converted.values().sum()
    }

    /// How many of them were thin already.
    pub fn thin_sheets(&self) -> u64 {
        let thin = self.converted.iter().filter(|((_, kind), _)| *kind == SheetKind::Thin);
        thin.map(|(_, count)| count).sum()
    }

    /// Adds what another tally counted.
    pub fn add(&mut self, other: &ThinTally) {
        counts::add(&mut self.pairs, &other.pairs);
        counts::add(&mut self.refused_thin, &other.refused_thin);
        counts::add(&mut self.converted, &other.converted);
        self.longest += other.longest;
        counts::add(&mut self.refusals, &other.refusals);
    }

    /// What never came: kinds that go together, refusals of thin sheets, sheets of
    /// either kind converted, refusals of converters.
    pub fn missing(&self) -> Vec<String> {
        let pairs = KINDS.iter().filter(|kinds| !self.pairs.contains_key(*kinds));
        let mut missing: Vec<String> =
            pairs.map(|kinds| format!("an accepted pair of kinds {kinds:?}")).collect();
        for which in BOTH {
            let (number, refusals) = (which.number(), || thin_refusals(which));
            let of_thin = refusals_of_kinds(which);
            let of_thin = of_thin.filter(|key| !self.refused_thin.contains_key(key));
            missing.extend(of_thin.map(|(n, s)| format!("refusal {n} of a thin sheet {s}")));
            let kinds = SheetKind::ALL.into_iter();
            let kinds = kinds.filter(|kind| !self.converted.contains_key(&(number, *kind)));
            missing.extend(kinds.map(|kind| format!("sheet {number} of kind {kind:?} converted")));
            let refused = refusals().filter(|key| !self.refusals.contains_key(key));
            missing.extend(refused.map(|(n, s)| format!("refusal {n} of a sheet {s} to convert")));
        }
        missing
    }

    pub fn report(&self) -> String {
        let pairs = counts::line("accepted by kinds", &self.pairs, |kinds| format!("{kinds:?}"));
        let refused = counts::line("refused, thin", &self.refused_thin, numbers);
        let word = |(sheet, kind): &(u32, SheetKind)| format!("sheet {sheet} {kind:?}");
        let converted = counts::line("converted", &self.converted, word);
        let refusals = counts::line("not converted", &self.refusals, numbers);
        let longest = self.longest;
        format!("{}{refused}{converted}, longest {longest}{refusals}\n", pairs.trim_start())
    }
}

fn numbers((number, sheet): &(u32, u32)) -> String {
    format!("{number}/{sheet}")
}

type Convert = fn(&[u8], usize) -> ThinAnswer;
type Read = fn(&[u8]) -> Result<Sheet, Refusal>;

fn of_which(which: Which) -> (Convert, Read) {
    match which {
        Which::Statement => (thin_statement, read_statement),
        Which::Schema => (thin_schema, read_schema),
    }
}

/// The answer for a sheet, after it was held against what reading answers and,
/// where that accepts, against the same document written anew: a thin sheet is that
/// already. It reads as the same document, and converted once more it stays.
pub fn judged(which: Which, bytes: &[u8]) -> Result<ThinAnswer, Difference> {
    let (convert, read) = of_which(which);
    let answer = convert(bytes, usize::MAX);
    let sheet = read(bytes);
    let anew = |sheet: &Sheet| Raw::of(sheet).in_kind(SheetKind::Thin).bytes();
    let wanted = sheet.as_ref().map(anew).map_err(|refusal| *refusal);
    if answer != wanted {
        return differs(format!("{which:?} converted to {answer:?}, written anew {wanted:?}"));
    }
    if let (Ok(thin), Ok(sheet)) = (&answer, &sheet) {
        let kept = SheetKind::of(bytes) == SheetKind::First || thin == bytes;
        let same = read(thin).as_ref() == Ok(sheet) && convert(thin, thin.len()) == answer;
        if !kept || !same || thin.len() > bytes.len() {
            return differs(format!("{which:?} converted to another document: {thin:?}"));
        }
    }
    rooms(convert, bytes, &answer)?;
    Ok(answer)
}

/// Buffers one byte short and exactly as long: 16 where the sheet is longer, and
/// behind every other refusal.
fn rooms(convert: Convert, bytes: &[u8], answer: &ThinAnswer) -> Result<(), Difference> {
    let length = answer.as_ref().map_or(1, Vec::len);
    for room in [length - 1, length] {
        let given = convert(bytes, room);
        let wanted = answer.clone().and_then(|sheet| fits(sheet.len(), room).map(|()| sheet));
        if given != wanted {
            return differs(format!("with {room} bytes lent {given:?}, not {wanted:?}"));
        }
    }
    Ok(())
}
