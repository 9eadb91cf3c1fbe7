//! Generated texts by seed: each answer held against what the text was made
//! to draw, and a tally that fails where an answer, a kind of cell or a way
//! never came.

use crate::compare::{Difference, differs};
use crate::counts::{self, Counts, Refusals, count_refusal, refusal_line};
use crate::rows::{row_statement, rows};
use crate::run::{Case, Tally, hex};
use crate::sheet::{Refusal, read_statement};
use crate::shrink::smallest_text;
use crate::texts::{TextCase, WAYS, Way, limits, small, text_case};

/// The answer for a buffer that is long enough.
pub type RowAnswer = Result<Vec<u8>, Refusal>;

/// How often each answer, kind of cell and way occurred.
#[derive(Clone, Debug, Default)]
pub struct TextTally {
    pub texts: u64,
    pub accepted: u64,
    pub refusals: Refusals,
    pub cells: Counts<u8>,
    pub ways: Counts<Way>,
}

/// Number and sheet of every refusal of the row writer.
pub const ROW_REFUSALS: [(u32, u32); 5] = [(17, 0), (18, 0), (5, 1), (19, 0), (16, 0)];

/// The token of the Map, and those of the span before it.
const MAP_TOKEN: usize = 8;
const SPAN_TOKENS: [usize; 2] = [5, 6];

impl TextTally {
    /// Answers one case, holds it against what it was made to draw, and counts
    /// it.
    pub fn take(&mut self, case: &TextCase) -> Result<RowAnswer, Difference> {
        let answer = judged(case)?;
        self.texts += 1;
        *self.ways.entry(case.way).or_default() += 1;
        match &answer {
            Ok(sheet) => self.sheet(case, sheet)?,
            Err(refusal) => count_refusal(&mut self.refusals, *refusal),
        }
        Ok(answer)
    }

    fn sheet(&mut self, case: &TextCase, sheet: &[u8]) -> Result<(), Difference> {
        self.accepted += 1;
        let asked = |room| row_statement(&case.text, &case.label, case.row, room);
        match (asked(sheet.len()), sheet.len().checked_sub(1).map(asked)) {
            (Ok(_), Some(Err(short))) => count_refusal(&mut self.refusals, short),
            other => return differs(format!("a lent length was judged wrongly: {other:?}")),
        }
        let sheet = read_statement(sheet).expect("read before");
        for cell in sheet.kids(MAP_TOKEN).iter().skip(1).step_by(2) {
            *self.cells.entry(sheet.kind(*cell)).or_default() += 1;
        }
        Ok(())
    }

    /// Adds what another tally counted.
    pub fn add(&mut self, other: &TextTally) {
        self.texts += other.texts;
        self.accepted += other.accepted;
        counts::add(&mut self.refusals, &other.refusals);
        counts::add(&mut self.cells, &other.cells);
        counts::add(&mut self.ways, &other.ways);
    }

    /// What never came: refusals, kinds of cells, ways.
    pub fn missing(&self) -> Vec<String> {
        let refusals = ROW_REFUSALS.iter().filter(|key| !self.refusals.contains_key(key));
        let mut missing: Vec<String> =
            refusals.map(|(number, _)| format!("refusal {number} of a row")).collect();
        let cells = (1..=5).filter(|kind| !self.cells.contains_key(kind));
        missing.extend(cells.map(|kind| format!("a cell of kind {kind}")));
        let ways = WAYS.iter().filter(|way| !self.ways.contains_key(way));
        missing.extend(ways.map(|way| format!("a text made so: {way:?}")));
        missing
    }

    pub fn report(&self) -> String {
        let mut out = format!("{} texts, {} accepted", self.texts, self.accepted);
        out += &refusal_line(&self.refusals);
        out += &counts::line("cells", &self.cells, u8::to_string);
        out += &counts::line("made so", &self.ways, |way| format!("{way:?}"));
        out + "\n"
    }
}

/// The answer to a case. An accepted sheet is read, and the row alone behind
/// its header has the same sheet but for the span.
pub fn judged(case: &TextCase) -> Result<RowAnswer, Difference> {
    let TextCase { text, label, row, .. } = case;
    let answer = row_statement(text, label, *row, usize::MAX);
    if case.expected.as_ref().is_some_and(|expected| *expected != answer) {
        let expected = &case.expected;
        return differs(format!("read as {answer:?}, made to be {expected:?}"));
    }
    let Ok(sheet) = &answer else { return Ok(answer) };
    if let Err(refusal) = read_statement(sheet) {
        return differs(format!("a sheet was written that is refused: {refusal:?}"));
    }
    let (cut, moved) = cut_out(case, sheet);
    let alone = row_statement(&cut, label, 0, usize::MAX);
    if alone.as_ref() != Ok(&moved) {
        return differs(format!("the row alone gives {alone:?}, not {moved:?}"));
    }
    Ok(answer)
}

/// The header and the row of a case, nothing else, and the sheet that row 0
/// then has: that of the case with the span moved.
pub fn cut_out(case: &TextCase, sheet: &[u8]) -> (Vec<u8>, Vec<u8>) {
    let rows = rows(&case.text).expect("a text that was accepted");
    let bytes = |row: usize| &case.text[rows[row].start..rows[row].stop];
    let (header, row) = (bytes(0), bytes(case.row as usize + 1));
    let start = header.len() + 2;
    let cut = [header, b"\r\n", row, b"\r\n"].concat();
    (cut, with_span(sheet, [start, start + row.len()]))
}

/// The sheet of a row with another span.
fn with_span(sheet: &[u8], span: [usize; 2]) -> Vec<u8> {
    let mut sheet = sheet.to_vec();
    let tokens = u32::from_le_bytes(sheet[..4].try_into().expect("four bytes")) as usize;
    for (token, place) in SPAN_TOKENS.into_iter().zip(span) {
        let at = 12 + tokens + 4 * token;
        sheet[at..at + 4].copy_from_slice(&(place as u32).to_le_bytes());
    }
    sheet
}

/// Runs the small texts, the limits and `texts` generated texts; what is
/// accepted goes on as a pair. A difference stops it.
pub fn run(seed: u64, texts: u64, pairs: &mut Tally) -> Result<TextTally, String> {
    let mut tally = TextTally::default();
    let generated = (0..texts).map(|number| (format!("text {number}"), text_case(seed, number)));
    let fixed = small().into_iter().chain(limits());
    let fixed = fixed.map(|case| ("limits".to_owned(), case));
    for (what, case) in fixed.chain(generated) {
        let said = |Difference(difference)| format!("{what}: {difference}\n{}", shrunk(&case));
        if let Ok(sheet) = tally.take(&case).map_err(said)? {
            let _list = pairs.take(&Case::accepted(sheet, case.schema.clone())).map_err(said)?;
        }
    }
    Ok(tally)
}

/// The smallest text found that still differs, or the case as it is.
fn shrunk(case: &TextCase) -> String {
    let small = smallest_text(case, |case| judged(case).is_err());
    format!("smallest: {}", listing(&small))
}

/// A case in words.
pub fn listing(case: &TextCase) -> String {
    let (text, label) = (case.text.escape_ascii(), case.label.escape_ascii());
    format!("row {} of \"{text}\", label \"{label}\"\n{}\n", case.row, hex(&case.text))
}

/// The cells of well-formed texts of a seed, for another reader to compare:
/// a line has the text in hex, the number of its rows, and each row's cells in
/// hex, divided by commas, behind a space.
pub fn cells(seed: u64, texts: u64) -> String {
    let generated = (0..texts).map(|number| text_case(seed, number));
    let cases = small().into_iter().chain(limits()).chain(generated);
    cases.filter_map(|case| cells_of(&case.text)).collect()
}

fn cells_of(text: &[u8]) -> Option<String> {
    let rows = rows(text).ok()?;
    let mut line = format!("{} {}", hex(text), rows.len());
    for row in &rows {
        let cells: Vec<String> = row.fields.iter().map(|field| hex(&field.content)).collect();
        line += &format!(" {}", cells.join(","));
    }
    Some(line + "\n")
}
