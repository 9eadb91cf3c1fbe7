//! What a run counted, and what never came in it.

use nurbellat::raw::Reply;
use oracle::join_run::JoinTally;
use oracle::run::Tally;
use oracle::text_run::TextTally;

use crate::operation::{OPERATIONS, Operation};

/// The highest number of a refusal.
const LAST: usize = 20;

/// Answers by number (0 accepted) and sheet.
type Answers = [[u64; 3]; LAST + 1];

#[derive(Default)]
pub struct Count {
    /// Pairs, codes and kinds, and the refusals of pairs.
    pub tally: Tally,
    /// Texts, their ways, cells and refusals.
    pub texts: TextTally,
    /// Statements that were joined, their ways, limits and refusals.
    pub joins: JoinTally,
    pub messages: u64,
    answers: [Answers; OPERATIONS.len()],
}

impl Count {
    pub fn call(&mut self, operation: Operation, wanted: &Reply) {
        self.answers[operation as usize][wanted.number as usize][wanted.sheet as usize] += 1;
    }

    pub fn add(&mut self, other: &Count) {
        self.tally.add(&other.tally);
        self.texts.add(&other.texts);
        self.joins.add(&other.joins);
        self.messages += other.messages;
        let ours = self.answers.as_flattened_mut().as_flattened_mut();
        for (count, more) in ours.iter_mut().zip(other.answers.as_flattened().as_flattened()) {
            *count += more;
        }
    }

    pub fn calls(&self) -> u64 {
        self.answers.as_flattened().as_flattened().iter().sum()
    }

    /// How many calls were refused with a number.
    fn calls_refused(&self, number: usize) -> u64 {
        self.answers.iter().flat_map(|of| of[number]).sum()
    }

    /// Codes, kinds and refusals that never came, of pairs, of texts, of joins
    /// and by operation.
    pub fn missing(&self) -> Vec<String> {
        let mut missing = self.tally.missing();
        missing.extend(self.texts.missing());
        missing.extend(self.joins.missing());
        for operation in OPERATIONS {
            let of = &self.answers[operation as usize];
            let wanted = operation.refusals().into_iter().chain([(0, 0)]);
            for (number, sheet) in wanted.filter(|(n, s)| of[*n as usize][*s as usize] == 0) {
                missing.push(format!("{operation:?}: answer {number} of sheet {sheet}"));
            }
        }
        missing
    }

    /// The table that ends a run.
    pub fn table(&self, differences: usize, seconds: f64) -> String {
        let Tally { pairs, accepted, items, refusals, .. } = &self.tally;
        let of_pairs = |number: u32| -> u64 {
            let of_number = refusals.iter().filter(|((drawn, _), _)| *drawn == number);
            of_number.map(|(_, count)| count).sum()
        };
        let mut out = format!("pairs          {pairs}\naccepted       {accepted}\n");
        for number in 1..=13 {
            out += &format!("refused {number:<6} {}\n", of_pairs(number));
        }
        let TextTally { texts, accepted, .. } = &self.texts;
        out += &format!("texts          {texts}\nrows accepted  {accepted}\n");
        let JoinTally { joins, accepted, .. } = &self.joins;
        out += &format!("joins          {joins}\njoins accepted {accepted}\n");
        let thin = &self.tally.thin;
        out += &format!("converted      {}\n", thin.sheets_converted());
        out += &format!("thin before    {}\nlongest thin   {}\n", thin.thin_sheets(), thin.longest);
        for number in 14..=LAST {
            out += &format!("calls with {number:<3} {}\n", self.calls_refused(number));
        }
        out += &format!("items          {items}\nmessages       {}\n", self.messages);
        out += &format!("calls          {}\ndifferences    {differences}\n", self.calls());
        out + &format!("seconds        {seconds:.0}\n")
    }
}
