//! Statements that are joined: two papers, and sheets that are made to cost
//! much. The published Rust has nothing that joins them, so the oracle's own
//! joiner stands beside ours.

use std::hint::black_box;

use nurbellat::raw;
use oracle::join::join_statements;
use oracle::joins::{MOST, one_after_another, sizes_of};
use oracle::sheet::{MAX_DEPTH, read_statement};
use oracle::tree::Raw;

use crate::input::Operation;
use crate::measure::Runs;
use crate::papers::paper;
use crate::schemas::Schema;

/// Which two statements.
#[derive(Clone, Copy, Debug, PartialEq, Eq)]
pub enum Join {
    Short,
    Papers,
    Halves,
    Names,
    Text,
    Deep,
    Behind,
    Past,
}

use Join::*;

/// Declarations of the schema that the papers were made for.
const DECLARATIONS: usize = 50;
/// Bytes of a character at the end of Unicode, which is read byte by byte.
const WIDE: &str = "\u{10ffff}";

impl Join {
    pub const ALL: [Join; 8] = [Short, Papers, Halves, Names, Text, Deep, Behind, Past];

    pub fn word(self) -> String {
        format!("{self:?}").to_lowercase()
    }

    pub fn of(word: &str) -> Option<Self> {
        Join::ALL.into_iter().find(|join| join.word() == word)
    }

    pub fn what(self) -> &'static str {
        match self {
            Short => "two papers of 100 tokens",
            Papers => "two papers of 2,000 tokens",
            Halves => "two halves that come to all limits, all but a few tokens names",
            Names => "1,024 empty names, then nulls up to 4,096 tokens",
            Text => "one name of 32,768 bytes in the second",
            Deep => "63 clauses that go down to depth 64",
            Behind => "no clause, then a sheet at all limits",
            Past => "two sheets at all limits, which is refused",
        }
    }

    fn sheets(self) -> [Raw; 2] {
        let full = || labels(MOST);
        let none = || Raw::new(vec![(90, 0)], Vec::new());
        match self {
            Short => papers(100),
            Papers => papers(2_000),
            Halves => [labels([2_048, 512, 16_384]), labels([2_049, 512, 16_384])],
            Names => [labels([4, 1_024, 0]), labels([4_093, 0, 0])],
            Text => [labels([9, 1, 0]), labels([9, 1, MOST[2]])],
            Deep => [deep(31), deep(32)],
            Behind => [none(), full()],
            Past => [full(), full()],
        }
    }
}

/// Two papers of one schema, by two seeds.
fn papers(tokens: usize) -> [Raw; 2] {
    let (declared, _) = Schema::new(DECLARATIONS);
    [1, 2].map(|seed| paper(&declared, seed, tokens, true).raw())
}

/// SET of labels: so many tokens, each name in turn, from the last to the
/// first; without names, RETURN of nulls. The names are of one length, but for
/// the last, and of wide characters as far as these fit.
fn labels([tokens, names, text]: [u32; 3]) -> Raw {
    let names = wide_names(names as usize, text as usize);
    let count = names.len() as u32;
    if names.is_empty() {
        let nulls = tokens - 2;
        let mut tokens = vec![(90, 1), (75, nulls)];
        tokens.extend((0..nulls).map(|_| (1, 0)));
        return Raw::new(tokens, names);
    }
    let labels = tokens - 3;
    let mut tokens = vec![(90, 1), (77, 1), (82, labels)];
    tokens.extend((0..labels).map(|i| (50, count - 1 - i % count)));
    Raw::new(tokens, names)
}

fn wide_names(count: usize, bytes: usize) -> Vec<Vec<u8>> {
    let each = bytes.checked_div(count).unwrap_or(0);
    let name = |i: usize| {
        let length = each + if i + 1 == count { bytes % count } else { 0 };
        let wide = WIDE.repeat(length / WIDE.len());
        [wide.as_bytes(), &b"n".repeat(length % WIDE.len())].concat()
    };
    (0..count).map(name).collect()
}

/// So many clauses, each with a leaf at the full depth.
fn deep(clauses: u32) -> Raw {
    let mut tokens = vec![(90, clauses)];
    for _ in 0..clauses {
        tokens.push((73, 0));
        tokens.extend((2..MAX_DEPTH).map(|_| (19, 0)));
        tokens.push((3, 0));
    }
    Raw::new(tokens, Vec::new())
}

/// Two sheets, and the buffer lent.
pub struct JoinInput {
    pub of: Join,
    pub first: Vec<u8>,
    pub second: Vec<u8>,
    out: Vec<u8>,
}

impl JoinInput {
    pub fn new(of: Join) -> Self {
        let [first, second] = of.sheets().map(|sheet| sheet.bytes());
        JoinInput { of, first, second, out: vec![0; usize::from(u16::MAX)] }
    }

    /// Tokens, names and bytes of text that both come to.
    pub fn sizes(&self) -> [u32; 3] {
        let [first, second] = self.of.sheets();
        sizes_of(&one_after_another(&first, &second))
    }

    /// Whether both sides give the same answer and sheet; what differs, if not.
    pub fn agree(&mut self) -> Result<(), String> {
        let reply = raw::join_statements(&self.first, &self.second, &mut self.out);
        let same = match join_statements(&self.first, &self.second, self.out.len()) {
            Ok(sheet) => reply.number == 0 && self.out[..reply.count as usize] == sheet,
            Err(refusal) => reply.number == refusal.number,
        };
        if same { Ok(()) } else { Err(format!("{:?}: the sheets differ: {reply:?}", self.of)) }
    }

    fn join(&mut self) {
        let (first, second) = black_box((&self.first, &self.second));
        black_box(raw::join_statements(first, second, &mut self.out));
    }

    fn oracle_join(&mut self) {
        let (first, second) = black_box((&self.first, &self.second));
        let _ = black_box(join_statements(first, second, self.out.len()));
    }

    fn read(&self) {
        let sheets = black_box([&self.first, &self.second]);
        black_box(sheets.map(|sheet| raw::read_statement(sheet)));
    }

    fn oracle_read(&self) {
        let sheets = black_box([&self.first, &self.second]);
        let _ = black_box(sheets.map(|sheet| read_statement(sheet)));
    }
}

impl Runs for JoinInput {
    fn run(&mut self, operation: Operation) {
        match operation {
            Operation::JoinStatements => self.join(),
            Operation::OracleJoinStatements => self.oracle_join(),
            Operation::ReadStatements => self.read(),
            Operation::OracleReadStatements => self.oracle_read(),
            _ => unreachable!("an operation on a pair or a text"),
        }
    }
}

#[cfg(test)]
mod tests {
    use super::*;

    #[test]
    fn both_sides_agree_on_every_join() {
        for of in Join::ALL {
            assert_eq!(JoinInput::new(of).agree(), Ok(()), "{of:?}");
        }
    }

    #[test]
    fn words_name_joins() {
        for join in Join::ALL {
            assert_eq!(Join::of(&join.word()), Some(join));
        }
        assert_eq!(Join::of("prose"), None);
    }

    #[test]
    fn all_sheets_are_read_and_all_but_one_pair_joined() {
        for of in Join::ALL {
            let JoinInput { first, second, out, .. } = JoinInput::new(of);
            assert!(read_statement(&first).is_ok() && read_statement(&second).is_ok(), "{of:?}");
            let joined = join_statements(&first, &second, out.len());
            assert_eq!(joined.err().map(|refusal| refusal.number), (of == Past).then_some(20));
        }
    }

    #[test]
    fn sizes_that_are_joined() {
        assert_eq!(JoinInput::new(Halves).sizes(), MOST);
        assert_eq!(JoinInput::new(Behind).sizes(), MOST);
        assert_eq!(JoinInput::new(Names).sizes(), [4_096, 1_024, 0]);
        assert_eq!(JoinInput::new(Text).sizes(), [17, 2, 32_768]);
        assert_eq!(JoinInput::new(Deep).sizes(), [4_033, 0, 0]);
    }
}
