//! Asks the two operations that convert sheets to the thin kind, and holds the
//! answers and all memory lent against the oracle's.

use nurbellat::raw::{self, Reply};
use oracle::rng::Rng;
use oracle::thin::{thin_schema, thin_statement};
use oracle::thin_run::ThinAnswer;

use crate::ask::{Asked, Asker, Call, Memory, Wanted};
use crate::known::{Known, in_room};
use crate::lengths::of_buffer;
use crate::operation::Operation::{self, ThinSchema, ThinStatement};

/// An operation that converts a sheet.
type Convert = fn(&[u8], &mut [u8]) -> Reply;

impl Asker {
    /// Both sheets of a pair converted.
    pub(crate) fn convert_both(&mut self, known: &Known, rng: &mut Rng) -> Asked {
        let answer = thin_statement(&known.case.statement, usize::MAX);
        self.convert(known, ThinStatement, &answer, rng)?;
        let answer = thin_schema(&known.case.schema, usize::MAX);
        self.convert(known, ThinSchema, &answer, rng)
    }

    fn convert(
        &mut self,
        known: &Known,
        operation: Operation,
        answer: &ThinAnswer,
        rng: &mut Rng,
    ) -> Asked {
        // Refused, a buffer that would do for the sheet is lent too.
        let whole = self.sheet_and_buffer(operation).0.len();
        let full = answer.as_ref().map_or(whole, Vec::len);
        for bytes in of_buffer(full, 1, rng) {
            let salt = self.next_salt();
            self.memory.text.fill(bytes, salt);
            let ask: Convert = match operation {
                ThinSchema => raw::thin_schema,
                _ => raw::thin_statement,
            };
            let (sheet, out) = self.sheet_and_buffer(operation);
            let given = ask(sheet, out);
            let wanted = Wanted::sheet(in_room(answer, bytes));
            self.settle(known, &Call::of(operation, bytes), given, wanted)?;
        }
        Ok(())
    }

    /// The sheet that an operation converts, and the buffer lent.
    fn sheet_and_buffer(&mut self, operation: Operation) -> (&[u8], &mut [u8]) {
        let Memory { statement, schema, text, .. } = &mut self.memory;
        let sheet = if operation == ThinSchema { schema } else { statement };
        (sheet.held(), text.places())
    }
}
