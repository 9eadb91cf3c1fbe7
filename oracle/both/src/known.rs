//! What the oracle answers for a pair, once the Rust gave the same.

use nurbellat::raw::Reply;
use oracle::answers::{endpoints_of, fit_list, message_of, names_of};
use oracle::items::Item;
use oracle::margin::in_margin;
use oracle::run::Case;
use oracle::sheet::{Refusal, Sheet, fits, read_schema, read_statement};

/// Both sheets as they were read, and the list.
pub struct Known<'a> {
    pub case: &'a Case,
    pub statement: Result<Sheet, Refusal>,
    pub schema: Result<Sheet, Refusal>,
    pub items: Result<Vec<Item>, Refusal>,
    /// The items as they stand in a list.
    pub numbers: Vec<u32>,
    /// The same in the margin list's order.
    pub margin: Vec<u32>,
}

impl<'a> Known<'a> {
    /// `items` is the answer that was held against the Rust.
    pub fn new(case: &'a Case, items: Result<Vec<Item>, Refusal>) -> Self {
        let numbers = items.iter().flatten().flat_map(Item::numbers).collect();
        let margin = items.as_deref().map(in_margin).unwrap_or_default();
        let margin = margin.iter().flat_map(Item::numbers).collect();
        let (statement, schema) = (read_statement(&case.statement), read_schema(&case.schema));
        Known { case, statement, schema, items, numbers, margin }
    }

    /// How many items there are; none in a refused pair.
    pub fn item_count(&self) -> usize {
        self.items.as_ref().map_or(0, Vec::len)
    }

    /// The number of items, in a list of so many places.
    pub fn list(&self, places: usize) -> Result<usize, Refusal> {
        fit_list(self.items.clone()?, places).map(|items| items.len())
    }

    pub fn message(&self, k: u32, bytes: usize) -> Result<Vec<u8>, Refusal> {
        let items = self.items.as_ref().map_err(|refusal| *refusal)?;
        message_of(self.read_statement()?, self.read_schema()?, items, k as usize, bytes)
    }

    pub fn names(&self, kind: u8, places: usize) -> Result<Vec<u32>, Refusal> {
        names_of(self.read_schema()?, kind, places)
    }

    pub fn endpoints(&self, text: &[u8], places: usize) -> Result<Vec<[u32; 2]>, Refusal> {
        endpoints_of(self.read_schema()?, text, places)
    }

    pub fn read_statement(&self) -> Result<&Sheet, Refusal> {
        self.statement.as_ref().map_err(|refusal| *refusal)
    }

    pub fn read_schema(&self) -> Result<&Sheet, Refusal> {
        self.schema.as_ref().map_err(|refusal| *refusal)
    }
}

/// A sheet that is to be written into so many bytes.
pub fn in_room(answer: &Result<Vec<u8>, Refusal>, bytes: usize) -> Result<&[u8], Refusal> {
    let sheet = answer.as_ref().map_err(|refusal| *refusal)?;
    fits(sheet.len(), bytes).map(|()| &sheet[..])
}

/// An answer in the archive's four numbers.
pub fn reply(answer: Result<usize, Refusal>) -> Reply {
    match answer {
        Ok(count) => Reply { number: 0, sheet: 0, place: 0, count: count as u32 },
        Err(Refusal { number, sheet, place }) => Reply { number, sheet, place, count: 0 },
    }
}
