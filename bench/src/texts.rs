//! Comma-separated texts that are measured: a timing plan, and texts that are
//! made to cost much. No seed: each is built one way. The published Rust has
//! nothing that reads them, so the oracle's own reader stands beside ours.

use std::hint::black_box;
use std::ops::Range;

use nurbellat::raw;
use oracle::rows;

use crate::input::Operation;
use crate::measure::Runs;

/// Which text.
#[derive(Clone, Copy, Debug, PartialEq, Eq)]
pub enum Text {
    Plan,
    Wide,
    Names,
    Quotes,
    Cell,
}

use Text::*;

const ROWS: usize = 1_000;
const HEADER: &[u8] = b"site,stage,green,amber,detector,linked,note,remark";
/// The most columns, and bytes of the label and the headers, that a sheet has.
const COLUMNS: usize = 1_023;
const NAMES: usize = 32_768;
const LABEL: &[u8] = b"Phase";
const CELL: usize = 1 << 20;

impl Text {
    pub const ALL: [Text; 5] = [Plan, Wide, Names, Quotes, Cell];

    pub fn word(self) -> String {
        format!("{self:?}").to_lowercase()
    }

    pub fn of(word: &str) -> Option<Self> {
        Text::ALL.into_iter().find(|text| text.word() == word)
    }

    pub fn what(self) -> &'static str {
        match self {
            Plan => "1,000 rows of 8 columns",
            Wide => "1,023 columns, names of 31 bytes, one row",
            Names => "one column, a name of 32,763 bytes, one row",
            Quotes => "one column, a name of 32,763 quotes, all doubled, and a cell like it",
            Cell => "one column, a quoted cell of 1,048,576 bytes",
        }
    }

    fn bytes(self) -> Vec<u8> {
        let name = NAMES - LABEL.len();
        match self {
            Plan => plan(),
            Wide => wide(),
            Names => lines(&[&vec![b'n'; name], b"1"]),
            Quotes => lines(&[&quoted(b'"', 2 * name), &quoted(b'"', 2 * name)]),
            Cell => lines(&[b"note", &quoted(b'x', CELL)]),
        }
    }
}

fn quoted(byte: u8, count: usize) -> Vec<u8> {
    let mut field = vec![byte; count + 2];
    field[0] = b'"';
    field[count + 1] = b'"';
    field
}

fn lines(lines: &[&[u8]]) -> Vec<u8> {
    lines.iter().flat_map(|line| [*line, b"\r\n"]).collect::<Vec<_>>().concat()
}

/// Rows of a timing plan, with a cell of each kind in most of them.
fn plan() -> Vec<u8> {
    let row = |i: usize| {
        let (site, stage, green, amber) = (i / 8, i % 8, 7 + i % 30, 3 + i % 2);
        let note = if i.is_multiple_of(5) { "\"see \"\"north\"\", gate 2\"" } else { "" };
        format!("Estate {site},{stage},{green}.{amber},{amber},D{i},{},{note},\"\"", i % 3 == 0)
    };
    let rows: Vec<String> = (0..ROWS).map(row).collect();
    let all = [HEADER].into_iter().chain(rows.iter().map(|row| row.as_bytes()));
    lines(&all.collect::<Vec<_>>())
}

fn wide() -> Vec<u8> {
    let columns = |cell: &dyn Fn(usize) -> String| {
        (0..COLUMNS).map(cell).collect::<Vec<_>>().join(",").into_bytes()
    };
    let header = columns(&|i| format!("a property of one column {i:06}"));
    lines(&[&header, &columns(&|i| i.to_string())])
}

/// A text, the ranges of its rows, and the buffers lent.
pub struct TextInput {
    pub of: Text,
    pub text: Vec<u8>,
    /// The header's first.
    pub rows: Vec<Range<usize>>,
    cut: Vec<u8>,
    out: Vec<u8>,
}

impl TextInput {
    pub fn new(of: Text) -> Self {
        let text = of.bytes();
        let read = rows::rows(&text).expect("a text of the grammar");
        let rows = read.iter().map(|row| row.start..row.stop).collect();
        TextInput { of, text, rows, cut: Vec::new(), out: vec![0; usize::from(u16::MAX)] }
    }

    /// The row in the middle, counted behind the header.
    fn middle(&self) -> u32 {
        (self.rows.len() as u32 - 1) / 2
    }

    /// Whether both sides give the same rows, and the same sheet of each; what
    /// differs, if not.
    pub fn agree(&mut self) -> Result<(), String> {
        let mut at = 0;
        for (number, row) in self.rows.iter().enumerate() {
            let given = raw::next_row(&self.text, at);
            if given.number != 0 || (given.start..given.stop) != *row {
                return Err(format!("{:?}: row {number} differs: {given:?}", self.of));
            }
            at = given.next;
        }
        self.sheet_agrees(self.middle())?;
        self.sheet_agrees(0)?;
        self.sheet_agrees(self.rows.len() as u32 - 2)
    }

    fn sheet_agrees(&mut self, row: u32) -> Result<(), String> {
        let reply = raw::row_statement(&self.text, LABEL, row, &mut self.out);
        let expected = rows::row_statement(&self.text, LABEL, row, self.out.len());
        match expected {
            Ok(sheet) if self.out[..reply.count as usize] == sheet => Ok(()),
            _ => Err(format!("{:?}: the sheet of row {row} differs: {reply:?}", self.of)),
        }
    }

    /// Puts the header and a row, each with its line end, into `cut`.
    fn cut_out(&mut self, row: Range<usize>) {
        self.cut.clear();
        self.cut.extend(&self.text[self.rows[0].clone()]);
        self.cut.extend(b"\r\n");
        self.cut.extend(&self.text[row]);
        self.cut.extend(b"\r\n");
    }

    fn one_row(&mut self) {
        let text = black_box(&self.text);
        black_box(raw::row_statement(text, LABEL, self.middle(), &mut self.out));
    }

    fn oracle_one_row(&mut self) {
        let text = black_box(&self.text);
        let _ = black_box(rows::row_statement(text, LABEL, self.middle(), self.out.len()));
    }

    fn walk(&mut self) {
        let text = black_box(&self.text);
        let mut row = raw::next_row(text, 0);
        while row.number == 0 {
            row = raw::next_row(text, row.next);
        }
        black_box(row);
    }

    fn oracle_walk(&mut self) {
        let text = black_box(&self.text);
        let mut at = 0;
        while let Ok(Some(row)) = rows::next_row(text, at) {
            at = row.next;
        }
        black_box(at);
    }

    fn all_sheets(&mut self) {
        let mut row = raw::next_row(&self.text, self.after_header());
        while row.number == 0 {
            self.cut_out(row.start..row.stop);
            black_box(raw::row_statement(&self.cut, LABEL, 0, &mut self.out));
            row = raw::next_row(&self.text, row.next);
        }
    }

    fn oracle_all_sheets(&mut self) {
        let mut at = self.after_header();
        while let Ok(Some(row)) = rows::next_row(&self.text, at) {
            self.cut_out(row.start..row.stop);
            let _ = black_box(rows::row_statement(&self.cut, LABEL, 0, self.out.len()));
            at = row.next;
        }
    }

    /// Where the first row behind the header begins.
    fn after_header(&self) -> usize {
        self.rows[1].start
    }
}

impl Runs for TextInput {
    fn run(&mut self, operation: Operation) {
        match operation {
            Operation::RowStatement => self.one_row(),
            Operation::OracleRowStatement => self.oracle_one_row(),
            Operation::Rows => self.walk(),
            Operation::OracleRows => self.oracle_walk(),
            Operation::RowSheets => self.all_sheets(),
            Operation::OracleRowSheets => self.oracle_all_sheets(),
            _ => unreachable!("an operation on sheets"),
        }
    }
}

#[cfg(test)]
mod tests {
    use super::*;

    #[test]
    fn both_sides_agree_on_every_text() {
        for of in Text::ALL {
            assert_eq!(TextInput::new(of).agree(), Ok(()), "{of:?}");
        }
    }

    #[test]
    fn words_name_texts() {
        for text in Text::ALL {
            assert_eq!(Text::of(&text.word()), Some(text));
        }
        assert_eq!(Text::of("prose"), None);
    }

    #[test]
    fn every_text_is_within_the_limits() {
        for of in Text::ALL {
            let input = TextInput::new(of);
            let sheet = rows::row_statement(&input.text, LABEL, 0, usize::MAX);
            assert!(sheet.is_ok_and(|sheet| sheet.len() <= input.out.len()), "{of:?}");
        }
        assert_eq!(TextInput::new(Plan).rows.len(), ROWS + 1);
    }
}
