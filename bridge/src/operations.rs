//! The fifteen operations over lent memory. Nothing is allocated here. Refused, what was lent is as it came; accepted,
//! what was written stands first and the rest keeps its content.
use crate::raw;
use crate::refusal::Refusal;
use std::ops::Range;

/// Refusals 1 to 9.
pub fn read_statement(bytes: &[u8]) -> Result<(), Refusal> {
    Refusal::or_count(raw::read_statement(bytes)).map(|_| ())
}

/// Refusals 1 to 13.
pub fn read_schema(bytes: &[u8]) -> Result<(), Refusal> {
    Refusal::or_count(raw::read_schema(bytes)).map(|_| ())
}

/// Lists every breach, seven numbers each ([`Diagnostic::from_numbers`](crate::Diagnostic::from_numbers)), and answers
/// how many. Functions are looked up in either case of the 26 ASCII letters, all other names by their exact bytes.
/// Refusals: the statement's, the schema's, then 14 exactly when there are more than fit whole.
pub fn check(statement: &[u8], schema: &[u8], list: &mut [u32]) -> Result<u32, Refusal> {
    Refusal::or_count(raw::check_schema_aware(statement, schema, list))
}

/// The items of [`check`] by where their spans start, those of one start in the check's order: so calls of functions and
/// labels of a SET, whose span is 0, 0, come first. Count and refusals are the check's.
pub fn margin_list(statement: &[u8], schema: &[u8], list: &mut [u32]) -> Result<u32, Refusal> {
    Refusal::or_count(raw::margin_list(statement, schema, list))
}

/// Writes the message of item `k` of [`check`], counted from 0, and answers its length in bytes. It has names as the
/// statement has them, also that of a function that is declared in other case. Refusals: the statement's, the
/// schema's, 15 where there is no such item, 16 exactly when the text is too short.
pub fn message(statement: &[u8], schema: &[u8], k: u32, text: &mut [u8]) -> Result<u32, Refusal> {
    Refusal::or_count(raw::message(statement, schema, k, text))
}

/// The labels in order of their names, each as the number of its name, and how many. Refusals: the schema's, then 16;
/// so for the next two.
pub fn label_names(schema: &[u8], out: &mut [u32]) -> Result<u32, Refusal> {
    Refusal::or_count(raw::label_names(schema, out))
}

/// The relationship types in order of their names.
pub fn rel_type_names(schema: &[u8], out: &mut [u32]) -> Result<u32, Refusal> {
    Refusal::or_count(raw::rel_type_names(schema, out))
}

/// The parameters in order of their names.
pub fn parameter_names(schema: &[u8], out: &mut [u32]) -> Result<u32, Refusal> {
    Refusal::or_count(raw::parameter_names(schema, out))
}

/// The pairs of start and end of a relationship type, two name numbers each, and how many pairs. A type that is not
/// declared has none. Refusals: the schema's, then 16.
pub fn relationship_endpoints(
    schema: &[u8],
    rel_type: &[u8],
    out: &mut [u32],
) -> Result<u32, Refusal> {
    Refusal::or_count(raw::relationship_endpoints(schema, rel_type, out))
}

/// The digest of a schema. Refusals: the schema's.
pub fn schema_digest(schema: &[u8]) -> Result<[u8; 32], Refusal> {
    let digested = raw::schema_digest(schema);
    Refusal::or_count(digested.reply).map(|_| digested.bytes)
}

/// Writes the statement sheet of a row of comma-separated text: a MERGE of one node with that label, a key for each
/// header, and the row's bytes as span. Rows count from 0 behind the header. Answers the sheet's length in bytes.
/// Refusals: 17 where the text breaks RFC 4180, 18 where there is no such row or it has not as many cells as the
/// header, 5 where the label (name 0) or a header (from name 1 on) is not UTF-8, 19 where the sheet would pass a limit,
/// then 16.
pub fn row_statement(text: &[u8], label: &[u8], row: u32, out: &mut [u8]) -> Result<u32, Refusal> {
    Refusal::or_count(raw::row_statement(text, label, row, out))
}

/// What stands at a place of comma-separated text.
#[derive(Clone, Debug, PartialEq, Eq)]
pub enum NextRow {
    /// A row of these bytes, its line end left off; the next one would begin at `next`.
    Row { bytes: Range<usize>, next: usize },
    /// The text has ended.
    End,
    /// The text breaks RFC 4180: at the first byte that cannot stand there, or at the text's end, in quotes or behind
    /// a CR.
    Broken { at: usize },
}

/// The row that begins at a place. What stands before it and behind its line end is not looked at.
pub fn next_row(text: &[u8], at: usize) -> NextRow {
    let raw::RowAt { number, start, stop, next } = raw::next_row(text, at);
    match number {
        0 => NextRow::Row { bytes: start..stop, next },
        17 => NextRow::Broken { at: stop },
        _ => NextRow::End,
    }
}

/// Writes two statements as one paper: the clauses of the first, then those of the second, spans unchanged, the
/// second's names numbered after the first's. Answers the joined sheet's length in bytes. Its list is the first's, then
/// the second's with owners moved on by the first sheet's tokens less one and clauses by its clauses, and every message
/// is the same. Refusals: the first's, the second's ([`Sheet::Second`](crate::Sheet::Second)), 20 where the joined
/// sheet would pass a size limit, then 16. The joined sheet is of the first kind, whatever the two are.
pub fn join_statements(first: &[u8], second: &[u8], out: &mut [u8]) -> Result<u32, Refusal> {
    let answer = Refusal::or_count(raw::join_statements(first, second, out));
    answer.map_err(Refusal::of_two_statements)
}

/// Writes a statement's sheet in the thin kind, with the same tokens and names; one that is thin already is copied byte
/// for byte. Answers its length in bytes, which is never more than the sheet has. Refusals: the statement's, then 16.
pub fn thin_statement(statement: &[u8], out: &mut [u8]) -> Result<u32, Refusal> {
    Refusal::or_count(raw::thin_statement(statement, out))
}

/// Writes a schema's sheet in the thin kind, as [`thin_statement`] does a statement's. Refusals: the schema's, then 16.
pub fn thin_schema(schema: &[u8], out: &mut [u8]) -> Result<u32, Refusal> {
    Refusal::or_count(raw::thin_schema(schema, out))
}

/// Most messages and most schemas need no more.
const FIRST_ROOM: usize = 128;

/// Asks with twice the room while the buffer is too short, and gives the count.
pub(crate) fn with_room<T: Copy + Default>(
    buffer: &mut Vec<T>,
    mut ask: impl FnMut(&mut [T]) -> Result<u32, Refusal>,
) -> Result<usize, Refusal> {
    buffer.resize(buffer.len().max(FIRST_ROOM), T::default());
    loop {
        match ask(buffer) {
            Err(Refusal { number: 16, .. }) => buffer.resize(2 * buffer.len(), T::default()),
            answer => return answer.map(|count| count as usize),
        }
    }
}
