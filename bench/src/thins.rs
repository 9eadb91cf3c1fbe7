//! Pairs in both kinds of sheets, the first and the thin: papers, and sheets that
//! are made to cost much. Both kinds are read and checked, and the first is
//! converted; the published Rust knows no kind, so the oracle's own converter
//! stands beside ours.

use std::hint::black_box;

use nurbellat::raw;
use oracle::items::ITEM_WIDTH;
use oracle::sheet::{MAX_NAMES, MAX_TEXT, MAX_TOKENS, SheetKind};
use oracle::thin::{thin_schema, thin_statement};
use oracle::tree::Raw;

use crate::input::{Operation, SEED, TOKENS};
use crate::measure::Runs;
use crate::papers::paper;
use crate::schemas::Schema;

/// Which pair.
#[derive(Clone, Copy, Debug, PartialEq, Eq)]
pub enum Thin {
    Ten,
    Hundred,
    Thousand,
    Thousands,
    Names,
    Limits,
}

use Thin::*;

/// Declarations of the schema that the papers were made for.
const DECLARATIONS: usize = 50;

impl Thin {
    pub const ALL: [Thin; 6] = [Ten, Hundred, Thousand, Thousands, Names, Limits];

    pub fn word(self) -> String {
        format!("{self:?}").to_lowercase()
    }

    pub fn of(word: &str) -> Option<Self> {
        Thin::ALL.into_iter().find(|thin| thin.word() == word)
    }

    pub fn what(self) -> &'static str {
        match self {
            Ten => "a paper of 10 tokens, 50 declarations",
            Hundred => "a paper of 100 tokens, 50 declarations",
            Thousand => "a paper of 1,000 tokens, 50 declarations",
            Thousands => "a paper of 4,000 tokens, 50 declarations",
            Names => "1,024 empty names and one token, in both sheets",
            Limits => "all limits at once, in both sheets",
        }
    }

    /// Statement and schema, in the first kind.
    fn sheets(self) -> [Raw; 2] {
        let empty = |first: u8| Raw::new(vec![(first, 0)], vec![Vec::new(); MAX_NAMES as usize]);
        match self {
            Ten => papers(TOKENS[0]),
            Hundred => papers(TOKENS[1]),
            Thousand => papers(TOKENS[2]),
            Thousands => papers(TOKENS[3]),
            Names => [empty(90), empty(100)],
            Limits => [set_labels(), aparts()],
        }
    }
}

fn papers(tokens: usize) -> [Raw; 2] {
    let (declared, schema) = Schema::new(DECLARATIONS);
    [paper(&declared, SEED, tokens, true).raw(), schema.raw()]
}

/// Names that take as many bytes as there may be, all of one length and no two
/// equal.
fn full_names() -> Vec<Vec<u8>> {
    let length = (MAX_TEXT / MAX_NAMES) as usize;
    (0..MAX_NAMES).map(|i| format!("{i:0length$}").into_bytes()).collect()
}

/// SET of labels, from the last name to the first and over again.
fn set_labels() -> Raw {
    let labels = MAX_TOKENS - 3;
    let mut tokens = vec![(90, 1), (77, 1), (82, labels)];
    tokens.extend((0..labels).map(|i| (50, MAX_NAMES - 1 - i % MAX_NAMES)));
    Raw::new(tokens, full_names())
}

/// Aparts of each name and the next.
fn aparts() -> Raw {
    let count = (MAX_TOKENS - 1) / 3;
    let name = |i: u32| (50, i % MAX_NAMES);
    let aparts = (0..count).flat_map(|i| [(106, 0), name(i), name(i + 1)]);
    Raw::new([(100, count)].into_iter().chain(aparts).collect(), full_names())
}

/// A pair in both kinds, and the memory lent.
pub struct ThinInput {
    pub of: Thin,
    /// Statement and schema of the first kind.
    pub first: [Vec<u8>; 2],
    /// The same in the thin kind.
    pub thin: [Vec<u8>; 2],
    list: Vec<u32>,
    out: Vec<u8>,
}

/// An operation of the archive that converts.
type Convert = fn(&[u8], &mut [u8]) -> raw::Reply;

impl ThinInput {
    pub fn new(of: Thin) -> Self {
        let in_kind = |kind| of.sheets().map(|sheet| sheet.in_kind(kind).bytes());
        let [first, thin] = SheetKind::ALL.map(in_kind);
        let list = vec![0; ITEM_WIDTH * MAX_TOKENS as usize];
        ThinInput { of, first, thin, list, out: vec![0; usize::from(u16::MAX)] }
    }

    /// Whether both kinds draw the same list, and each sheet is converted to the
    /// thin one; what differs, if not.
    pub fn agree(&mut self) -> Result<(), String> {
        let of_first = check(&self.first, &mut self.list);
        let list = self.list.clone();
        self.list.fill(0);
        let of_thin = check(&self.thin, &mut self.list);
        let items = ITEM_WIDTH * of_first.count as usize;
        let listed = of_first.number == 0 && of_first == of_thin;
        if !listed || list[..items] != self.list[..items] {
            return Err(format!("{:?}: the lists differ: {of_first:?} {of_thin:?}", self.of));
        }
        let converts: [Convert; 2] = [raw::thin_statement, raw::thin_schema];
        for (i, convert) in converts.into_iter().enumerate() {
            for sheet in [&self.first[i], &self.thin[i]] {
                let reply = convert(sheet, &mut self.out);
                if reply.number != 0 || self.out[..reply.count as usize] != self.thin[i] {
                    return Err(format!("{:?}: the sheets differ: {reply:?}", self.of));
                }
            }
        }
        Ok(())
    }

    /// An operation of ours that converts, or copies.
    fn convert(&mut self, operation: Operation) {
        let (convert, sheet): (Convert, _) = match operation {
            Operation::ThinStatement => (raw::thin_statement, &self.first[0]),
            Operation::ThinSchema => (raw::thin_schema, &self.first[1]),
            _ => (raw::thin_statement, &self.thin[0]),
        };
        black_box(convert(black_box(sheet), &mut self.out));
    }

    /// The same of the oracle.
    fn oracle_convert(&self, operation: Operation) {
        let room = self.out.len();
        let _ = match operation {
            Operation::OracleThinStatement => {
                black_box(thin_statement(black_box(&self.first[0]), room))
            }
            Operation::OracleThinSchema => black_box(thin_schema(black_box(&self.first[1]), room)),
            _ => black_box(thin_statement(black_box(&self.thin[0]), room)),
        };
    }
}

fn check([statement, schema]: &[Vec<u8>; 2], list: &mut [u32]) -> raw::Reply {
    raw::check_schema_aware(statement, schema, list)
}

fn read([statement, schema]: &[Vec<u8>; 2]) -> [raw::Reply; 2] {
    [raw::read_statement(statement), raw::read_schema(schema)]
}

impl Runs for ThinInput {
    fn run(&mut self, operation: Operation) {
        match operation {
            Operation::Check => _ = black_box(check(black_box(&self.first), &mut self.list)),
            Operation::CheckThin => _ = black_box(check(black_box(&self.thin), &mut self.list)),
            Operation::Reading => _ = black_box(read(black_box(&self.first))),
            Operation::ReadingThin => _ = black_box(read(black_box(&self.thin))),
            Operation::ThinStatement | Operation::ThinSchema | Operation::ThinCopy => {
                self.convert(operation);
            }
            _ if operation.is_of_thin() => self.oracle_convert(operation),
            _ => unreachable!("an operation on a pair of one kind, a text or statements to join"),
        }
    }
}

#[cfg(test)]
mod tests {
    use super::*;

    #[test]
    fn both_kinds_agree_on_every_pair() {
        for of in Thin::ALL {
            assert_eq!(ThinInput::new(of).agree(), Ok(()), "{of:?}");
        }
    }

    #[test]
    fn words_name_pairs() {
        for thin in Thin::ALL {
            assert_eq!(Thin::of(&thin.word()), Some(thin));
        }
        assert_eq!(Thin::of("thick"), None);
    }

    #[test]
    fn the_oracle_converts_every_pair_too() {
        for of in Thin::ALL {
            let ThinInput { first, thin, out, .. } = ThinInput::new(of);
            assert_eq!(thin_statement(&first[0], out.len()).as_ref(), Ok(&thin[0]), "{of:?}");
            assert_eq!(thin_schema(&first[1], out.len()).as_ref(), Ok(&thin[1]), "{of:?}");
        }
    }

    #[test]
    fn sizes_of_the_sheets() {
        let lengths = |of: Thin| {
            let ThinInput { first, thin, .. } = ThinInput::new(of);
            [first, thin].map(|sheets| sheets.map(|sheet| sheet.len()))
        };
        assert_eq!(lengths(Limits), [[57_356; 2], [55_308; 2]]);
        assert_eq!(lengths(Names), [[17 + 4 * 1_024; 2], [17 + 2 * 1_024; 2]]);
    }
}
