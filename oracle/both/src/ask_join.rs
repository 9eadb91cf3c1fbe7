//! Asks the operation that joins statements, and holds the answers and all
//! memory lent against the oracle's.

use nurbellat::raw;
use oracle::join::join_statements;
use oracle::joins::{JoinAnswer, JoinCase};
use oracle::rng::Rng;
use oracle::run::Case;
use oracle::store_answers::{FNV_START, fnv1a};

use crate::ask::{Asked, Asker, Call, Memory, Read, Wanted};
use crate::known::in_room;
use crate::lengths::of_buffer;
use crate::operation::Operation::JoinStatements;

impl Asker {
    /// Two statements joined, and where that is accepted three, both ways. The
    /// joined sheet goes on as a pair.
    pub fn join(&mut self, case: &JoinCase) -> Asked {
        let answer = self.count.joins.take(case)?;
        self.salt = fnv1a(fnv1a(FNV_START, &case.first), &case.second);
        let mut rng = Rng::new(self.salt, 2);
        self.lend_two(case);
        // Refused, a buffer that would do for both is lent too.
        let whole = case.first.len() + case.second.len();
        let full = answer.as_ref().map_or(whole, Vec::len);
        for bytes in of_buffer(full, 1, &mut rng) {
            self.join_statements(case, &answer, bytes)?;
        }
        let Ok(sheet) = answer else { return Ok(()) };
        self.three(case, &sheet)?;
        self.pair(&Case::accepted(sheet, case.schema.clone()))
    }

    fn lend_two(&mut self, case: &JoinCase) {
        let (of_first, of_second) = (self.next_salt(), self.next_salt());
        self.memory.statement.hold(&case.first, of_first);
        self.memory.second.hold(&case.second, of_second);
    }

    fn join_statements(&mut self, case: &JoinCase, answer: &JoinAnswer, bytes: usize) -> Asked {
        let salt = self.next_salt();
        let Memory { statement, second, text, .. } = &mut self.memory;
        text.fill(bytes, salt);
        let given = raw::join_statements(statement.held(), second.held(), text.places());
        let wanted = Wanted::sheet(in_room(answer, bytes));
        self.settle_read(Read::Join(case), &Call::of(JoinStatements, bytes), given, wanted)
    }

    /// The joined sheet with the third, and the first with the last two joined
    /// where these can be, each into a buffer that it fills.
    fn three(&mut self, case: &JoinCase, joined: &[u8]) -> Asked {
        self.join_again(case, joined, &case.third)?;
        match join_statements(&case.second, &case.third, usize::MAX) {
            Ok(last_two) => self.join_again(case, &case.first, &last_two),
            Err(_) => Ok(()),
        }
    }

    fn join_again(&mut self, case: &JoinCase, first: &[u8], second: &[u8]) -> Asked {
        let answer = join_statements(first, second, usize::MAX);
        let (first, second) = (first.to_vec(), second.to_vec());
        let case = JoinCase { first, second, ..case.clone() };
        self.lend_two(&case);
        self.join_statements(&case, &answer, answer.as_ref().map_or(0, Vec::len))
    }
}
