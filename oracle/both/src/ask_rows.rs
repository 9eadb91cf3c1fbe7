//! Asks the two operations over comma-separated text, and holds the answers
//! and all memory lent against the oracle's.

use nurbellat::raw::{self, RowAt};
use oracle::compare::Difference;
use oracle::rng::Rng;
use oracle::rows::{Broken, next_row};
use oracle::run::Case;
use oracle::sheet::Refusal;
use oracle::store_answers::{FNV_START, fnv1a};
use oracle::text_run::{RowAnswer, cut_out};
use oracle::texts::TextCase;

use crate::ask::{Asked, Asker, Call, Memory, Read, Wanted};
use crate::known::{in_room, reply};
use crate::lengths::{of_buffer, of_places};
use crate::operation::Operation::{NextRow, RowStatement};

impl Asker {
    /// Both operations on one text. The sheet of an accepted row, and that of
    /// the row alone behind its header, are asked for as well, and the first
    /// goes on as a pair.
    pub fn text(&mut self, case: &TextCase) -> Asked {
        let answer = self.count.texts.take(case)?;
        self.salt = fnv1a(fnv1a(FNV_START, &case.text), &case.label) ^ u64::from(case.row);
        let mut rng = Rng::new(self.salt, 1);
        self.lend(case);
        self.rows_in_turn(case)?;
        for at in of_places(case.text.len(), &mut rng) {
            self.next_row(case, at)?;
        }
        let full = answer.as_ref().map_or(0, Vec::len);
        for bytes in of_buffer(full, 1, &mut rng) {
            self.row_statement(case, &answer, bytes)?;
        }
        let Ok(sheet) = answer else { return Ok(()) };
        self.row_alone(case, &sheet)?;
        self.pair(&Case::accepted(sheet, case.schema.clone()))
    }

    fn lend(&mut self, case: &TextCase) {
        let (of_plan, of_label) = (self.next_salt(), self.next_salt());
        self.memory.plan.hold(&case.text, of_plan);
        self.memory.label.hold(&case.label, of_label);
    }

    /// Every row from the first on, up to the end or where the text breaks.
    fn rows_in_turn(&mut self, case: &TextCase) -> Asked {
        let mut at = 0;
        loop {
            let RowAt { number, next, .. } = self.next_row(case, at)?;
            if number != 0 {
                return Ok(());
            }
            at = next;
        }
    }

    fn next_row(&mut self, case: &TextCase, at: usize) -> Result<RowAt, Difference> {
        self.memory.row = raw::next_row(self.memory.plan.held(), at);
        let row = row_at(&case.text, at);
        let answer = match row.number {
            0 => Ok(0),
            number => Err(Refusal::neither(number)),
        };
        let given = reply(answer);
        let call = Call { at: Some(at), ..Call::of(NextRow, 0) };
        let wanted = Wanted { row: Some(row), ..Wanted::answer(answer) };
        self.settle_read(Read::Text(case), &call, given, wanted)?;
        Ok(row)
    }

    fn row_statement(&mut self, case: &TextCase, answer: &RowAnswer, bytes: usize) -> Asked {
        let salt = self.next_salt();
        let Memory { plan, label, text, .. } = &mut self.memory;
        text.fill(bytes, salt);
        let given = raw::row_statement(plan.held(), label.held(), case.row, text.places());
        let wanted = Wanted::sheet(in_room(answer, bytes));
        let call = Call { at: Some(case.row as usize), ..Call::of(RowStatement, bytes) };
        self.settle_read(Read::Text(case), &call, given, wanted)
    }

    /// The header and the row, nothing else: the same sheet, the span moved.
    fn row_alone(&mut self, case: &TextCase, sheet: &[u8]) -> Asked {
        let (text, moved) = cut_out(case, sheet);
        let alone = TextCase { text, row: 0, ..case.clone() };
        self.lend(&alone);
        self.row_statement(&alone, &Ok(moved), sheet.len())
    }
}

/// The oracle's answer in the archive's four numbers.
fn row_at(text: &[u8], at: usize) -> RowAt {
    match next_row(text, at) {
        Ok(Some(row)) => RowAt { number: 0, start: row.start, stop: row.stop, next: row.next },
        Ok(None) => RowAt { number: 18, start: at, stop: at, next: at },
        Err(Broken(place)) => RowAt { number: 17, start: at, stop: place, next: place },
    }
}
