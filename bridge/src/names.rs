//! Names of a sheet by number, and the store's answers as texts.
use crate::kind::SheetKind;
use crate::operations::{
    label_names, parameter_names, rel_type_names, relationship_endpoints, with_room,
};
use crate::refusal::Refusal;

/// The names of a sheet of either kind.
#[derive(Clone, Copy, Debug)]
pub struct Names<'a> {
    /// Bytes of an end.
    width: usize,
    ends: &'a [u8],
    text: &'a [u8],
}

impl<'a> Names<'a> {
    /// None where the sizes do not fit the length. An accepted sheet has its names.
    pub fn of(sheet: &'a [u8]) -> Option<Self> {
        let kind = SheetKind::of(sheet);
        let width = kind.end_width();
        let tokens = number_at(sheet, 4, 0)? ^ kind.mark() as usize;
        let names = number_at(sheet, 4, 1)?;
        let rest = sheet.get(tokens.checked_mul(5)?.checked_add(12)?..)?;
        let (ends, text) = rest.split_at_checked(names.checked_mul(width)?)?;
        Some(Names { width, ends, text })
    }

    /// Name `number`, where the sheet has it.
    pub fn get(&self, number: u32) -> Option<&'a str> {
        let number = number as usize;
        let end = number_at(self.ends, self.width, number)?;
        let start = match number {
            0 => 0,
            _ => number_at(self.ends, self.width, number - 1)?,
        };
        std::str::from_utf8(self.text.get(start..end)?).ok()
    }
}

/// The number of that width, low byte first, that stands behind so many others.
fn number_at(bytes: &[u8], width: usize, number: usize) -> Option<usize> {
    let found = bytes.get(number.checked_mul(width)?..)?.get(..width)?;
    Some(found.iter().rev().fold(0, |above, byte| 256 * above + usize::from(*byte)))
}

/// The labels, in order.
pub fn labels(schema: &[u8]) -> Result<Vec<&str>, Refusal> {
    texts(schema, label_names)
}

/// The relationship types, in order.
pub fn rel_types(schema: &[u8]) -> Result<Vec<&str>, Refusal> {
    texts(schema, rel_type_names)
}

/// The parameters, in order.
pub fn parameters(schema: &[u8]) -> Result<Vec<&str>, Refusal> {
    texts(schema, parameter_names)
}

fn texts(
    schema: &[u8],
    ask: impl Fn(&[u8], &mut [u32]) -> Result<u32, Refusal>,
) -> Result<Vec<&str>, Refusal> {
    let mut numbers = Vec::new();
    let count = with_room(&mut numbers, |out| ask(schema, out))?;
    Ok(numbers[..count].iter().map(|number| text(schema, *number)).collect())
}

/// The pairs of start and end of a relationship type.
pub fn endpoints<'a>(schema: &'a [u8], rel_type: &str) -> Result<Vec<(&'a str, &'a str)>, Refusal> {
    let mut numbers = Vec::new();
    let ask = |out: &mut [u32]| relationship_endpoints(schema, rel_type.as_bytes(), out);
    let count = with_room(&mut numbers, ask)?;
    let pairs = numbers.chunks_exact(2).take(count);
    Ok(pairs.map(|pair| (text(schema, pair[0]), text(schema, pair[1]))).collect())
}

fn text(accepted: &[u8], number: u32) -> &str {
    let names = Names::of(accepted);
    names.and_then(|names| names.get(number)).expect("a name of an accepted sheet")
}
