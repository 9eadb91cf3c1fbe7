//! Changed answers about thin sheets: as an archive could give them that reads
//! them otherwise, or converts to others.

use std::ops::Range;

use nurbellat::raw::{self, Reply};
use oracle::sheet::{MAX_TOKENS, SheetKind, Which};

use crate::ask::Memory;
use crate::notice::{
    Change, NAME, change, confuse, flip, last_kind, last_of_kind, refuse, token_value,
};
use crate::operation::Operation::*;

/// Bytes of a sheet's sizes, which stand first.
const SIZES: usize = 12;

/// The highest byte of the token count, and its top bit.
const MARK: (usize, u8) = (3, 0x80);

fn number(bytes: &[u8]) -> usize {
    bytes.iter().rev().fold(0, |above, byte| 256 * above + usize::from(*byte))
}

/// Tokens, names and bytes of text of a sheet that has sizes, if it is thin.
fn thin_sizes(sheet: &[u8]) -> Option<[usize; 3]> {
    let sizes = sheet.get(..SIZES).filter(|_| SheetKind::of(sheet) == SheetKind::Thin)?;
    let [tokens, names, text] = [0, 4, 8].map(|at| number(&sizes[at..at + 4]));
    Some([tokens ^ SheetKind::Thin.mark() as usize, names, text])
}

/// Where the ends of a written thin sheet stand.
fn ends(sheet: &[u8]) -> Option<Range<usize>> {
    let [tokens, names, _] = thin_sizes(sheet)?;
    let start = SIZES + 5 * tokens;
    Some(start..start + 2 * names)
}

fn sheet_of(which: Which, memory: &Memory) -> &[u8] {
    match which {
        Which::Statement => memory.statement.held(),
        Which::Schema => memory.schema.held(),
    }
}

fn refusal(number: u32, which: Which, place: usize) -> Reply {
    Reply { number, sheet: which.number(), place: place as u32, count: 0 }
}

const ACCEPTED: Reply = Reply { number: 0, sheet: 0, place: 0, count: 0 };

/// 2 for a thin sheet, as a reader has it that knows the first kind alone.
fn unknown_kind(which: Which, given: &mut Reply, memory: &mut Memory) {
    if given.number == 0 && thin_sizes(sheet_of(which, memory)).is_some() {
        *given = refusal(2, which, 0);
    }
}

/// 2 where the sheets of a pair are of two kinds.
fn one_of_each(given: &mut Reply, memory: &mut Memory) {
    let [one, other] = [&memory.statement, &memory.schema].map(|m| SheetKind::of(m.held()));
    if given.number == 0 && one != other {
        *given = refusal(2, Which::Statement, 0);
    }
}

/// 2 for a second sheet to join that is thin.
fn second_unknown(given: &mut Reply, memory: &mut Memory) {
    if given.number == 0 && thin_sizes(memory.second.held()).is_some() {
        *given = refusal(2, Which::Schema, 0);
    }
}

/// 3 for a thin sheet with names, as if each end had four bytes; and the sheet that
/// would be right then accepted.
fn wide_ends(which: Which, given: &mut Reply, memory: &mut Memory) {
    let sheet = sheet_of(which, memory);
    let Some([tokens, names, text]) = thin_sizes(sheet).filter(|sizes| sizes[1] > 0) else {
        return;
    };
    let wide = sheet.len() == SIZES + 5 * tokens + 4 * names + text;
    match given.number {
        0 => *given = refusal(3, which, 0),
        3 if wide => *given = ACCEPTED,
        _ => {}
    }
}

/// A thin sheet of so many tokens accepted.
fn of_tokens(tokens: usize, given: &mut Reply, memory: &mut Memory) {
    let found = thin_sizes(sheet_of(Which::Statement, memory)).map(|[found, ..]| found);
    if given.number == 2 && found == Some(tokens) {
        *given = ACCEPTED;
    }
}

fn without_tokens(given: &mut Reply, memory: &mut Memory) {
    of_tokens(0, given, memory);
}

fn token_too_many(given: &mut Reply, memory: &mut Memory) {
    of_tokens(MAX_TOKENS as usize + 1, given, memory);
}

/// 4 where an end of a thin sheet has the highest bit.
fn ends_of_15_bits(given: &mut Reply, memory: &mut Memory) {
    let sheet = memory.statement.held();
    let Some(ends) = ends(sheet).filter(|_| given.number == 0) else { return };
    if let Some(name) = sheet[ends].chunks(2).position(|end| end[1] >= 0x80) {
        *given = refusal(4, Which::Statement, name);
    }
}

/// The joined sheet in the thin kind, where the first is.
fn thin_joined(given: &mut Reply, memory: &mut Memory) {
    let Memory { statement, text, .. } = memory;
    if given.number == 0 && thin_sizes(statement.held()).is_some() {
        let joined = text.places()[..given.count as usize].to_vec();
        *given = raw::thin_statement(&joined, text.places());
    }
}

/// The sheet as it was in place of the thin one, where there is room.
fn not_converted(which: Which, given: &mut Reply, memory: &mut Memory) {
    let sheet = sheet_of(which, memory).to_vec();
    if let Some(out) = memory.text.places().get_mut(..sheet.len()).filter(|_| given.number == 0) {
        out.copy_from_slice(&sheet);
        given.count = sheet.len() as u32;
    }
}

/// 16 where the sheet to convert is longer than the buffer.
fn room_of_the_first(which: Which, given: &mut Reply, memory: &mut Memory) {
    if given.number == 0 && memory.text.places().len() < sheet_of(which, memory).len() {
        *given = Reply { number: 16, ..ACCEPTED };
    }
}

/// A written sheet, where one was.
fn written<'a>(given: &Reply, memory: &'a mut Memory) -> Option<&'a mut [u8]> {
    let written = &mut memory.text.places()[..given.count as usize];
    Some(written).filter(|sheet| !sheet.is_empty())
}

fn unmarked(given: &mut Reply, memory: &mut Memory) {
    if let Some(sheet) = written(given, memory) {
        sheet[MARK.0] ^= MARK.1;
    }
}

/// Bits of a byte of the last end, counted from its low one.
fn last_end(bits: u8, byte: usize, given: &mut Reply, memory: &mut Memory) {
    let Some(sheet) = written(given, memory) else { return };
    if let Some(ends) = ends(sheet).filter(|ends| !ends.is_empty()) {
        sheet[ends.end - 2 + byte] ^= bits;
    }
}

fn end_low(given: &mut Reply, memory: &mut Memory) {
    last_end(1, 0, given, memory);
}

fn end_high(given: &mut Reply, memory: &mut Memory) {
    last_end(0x80, 1, given, memory);
}

/// The last byte of a sheet that was thin already.
fn not_copied(which: Which, given: &mut Reply, memory: &mut Memory) {
    let thin = thin_sizes(sheet_of(which, memory)).is_some();
    if let Some(last) = written(given, memory).filter(|_| thin).and_then(|sheet| sheet.last_mut()) {
        *last ^= 1;
    }
}

pub(crate) const CHANGES: &[Change] = &[
    change(ReadStatement, "2 for a thin sheet", |r, m| unknown_kind(Which::Statement, r, m)),
    change(ReadStatement, "four bytes for each end of a thin sheet", |r, m| {
        wide_ends(Which::Statement, r, m)
    }),
    change(ReadStatement, "ends of a thin sheet of 15 bits", ends_of_15_bits),
    change(ReadStatement, "a thin sheet without tokens accepted", without_tokens),
    change(ReadStatement, "a thin sheet of 4,097 tokens accepted", token_too_many),
    change(ReadSchema, "2 for a thin sheet", |r, m| unknown_kind(Which::Schema, r, m)),
    change(ReadSchema, "four bytes for each end of a thin sheet", |r, m| {
        wide_ends(Which::Schema, r, m)
    }),
    change(CheckSchemaAware, "2 for a thin statement", |r, m| unknown_kind(Which::Statement, r, m)),
    change(CheckSchemaAware, "2 for a thin schema", |r, m| unknown_kind(Which::Schema, r, m)),
    change(CheckSchemaAware, "2 for sheets of two kinds", one_of_each),
    change(MarginList, "2 for a thin schema", |r, m| unknown_kind(Which::Schema, r, m)),
    change(Message, "2 for a thin statement", |r, m| unknown_kind(Which::Statement, r, m)),
    change(LabelNames, "2 for a thin schema", |r, m| unknown_kind(Which::Schema, r, m)),
    change(RelTypeNames, "2 for a thin schema", |r, m| unknown_kind(Which::Schema, r, m)),
    change(ParameterNames, "2 for a thin schema", |r, m| unknown_kind(Which::Schema, r, m)),
    change(RelationshipEndpoints, "2 for a thin schema", |r, m| unknown_kind(Which::Schema, r, m)),
    change(SchemaDigest, "2 for a thin schema", |r, m| unknown_kind(Which::Schema, r, m)),
    change(JoinStatements, "2 for a thin first", |r, m| unknown_kind(Which::Statement, r, m)),
    change(JoinStatements, "2 for a thin second", second_unknown),
    change(JoinStatements, "a thin sheet of a thin first", thin_joined),
    change(ThinStatement, "the refusal's number", |r, _| r.number += (r.number > 0) as u32),
    change(ThinStatement, "the refusal's sheet", |r, _| r.sheet *= 2),
    change(ThinStatement, "the refusal's place", |r, _| r.place += (r.number != 0) as u32),
    change(ThinStatement, "16 before the refusals", |r, _| {
        if r.number != 0 {
            refuse(r, 16)
        }
    }),
    change(ThinStatement, "16 where the sheet fits", |r, _| refuse(r, 16)),
    change(ThinStatement, "20 for 16", |r, _| confuse(&mut r.number, 16, 20)),
    change(ThinStatement, "16 of sheet 1", |r, _| r.sheet += (r.number == 16) as u32),
    change(ThinStatement, "16 for the room of the sheet that is converted", |r, m| {
        room_of_the_first(Which::Statement, r, m)
    }),
    change(ThinStatement, "2 for a thin sheet", |r, m| unknown_kind(Which::Statement, r, m)),
    change(ThinStatement, "the number of bytes", |r, _| r.count += (r.count > 0) as u32),
    change(ThinStatement, "the sheet as it was", |r, m| not_converted(Which::Statement, r, m)),
    change(ThinStatement, "no mark", unmarked),
    change(ThinStatement, "the number of tokens", |r, m| {
        flip(m.text.places().first_mut().filter(|_| r.number == 0))
    }),
    change(ThinStatement, "the kind of the last token", |r, m| last_kind(r, m)),
    change(ThinStatement, "the number of clauses", |r, m| token_value(r, m, 0)),
    change(ThinStatement, "the number of the last name", |r, m| last_of_kind(r, m, NAME)),
    change(ThinStatement, "the last end's low byte", end_low),
    change(ThinStatement, "the last end's highest bit", end_high),
    change(ThinStatement, "the sheet's last byte", |r, m| {
        flip(m.text.places()[..r.count as usize].last_mut())
    }),
    change(ThinStatement, "a thin sheet not copied", |r, m| not_copied(Which::Statement, r, m)),
    change(ThinStatement, "the buffer after the sheet", |r, m| {
        flip(m.text.places().get_mut(r.count as usize).filter(|_| r.number == 0))
    }),
    change(ThinStatement, "the buffer, refused", |r, m| {
        flip(m.text.places().first_mut().filter(|_| r.number != 0))
    }),
    change(ThinStatement, "the buffer's end, refused", |r, m| {
        flip(m.text.places().last_mut().filter(|_| r.number != 0))
    }),
    change(ThinStatement, "memory before the buffer", |_, m| flip(m.text.whole().first_mut())),
    change(ThinStatement, "memory after the buffer", |_, m| flip(m.text.whole().last_mut())),
    change(ThinStatement, "a byte of the statement", |_, m| flip(m.statement.places().last_mut())),
    change(ThinSchema, "the refusal's sheet", |r, _| confuse(&mut r.sheet, 2, 1)),
    change(ThinSchema, "the refusal's place", |r, _| r.place += (r.number > 9) as u32),
    change(ThinSchema, "a schema of equal Aparts accepted", |r, _| {
        if r.number == 13 {
            refuse(r, 0)
        }
    }),
    change(ThinSchema, "16 before the refusals", |r, _| {
        if r.number != 0 {
            refuse(r, 16)
        }
    }),
    change(ThinSchema, "no 16", |r, _| r.number %= 16),
    change(ThinSchema, "16 for the room of the sheet that is converted", |r, m| {
        room_of_the_first(Which::Schema, r, m)
    }),
    change(ThinSchema, "the number of bytes", |r, _| r.count = r.count.saturating_sub(1)),
    change(ThinSchema, "the sheet as it was", |r, m| not_converted(Which::Schema, r, m)),
    change(ThinSchema, "no mark", unmarked),
    change(ThinSchema, "the last end's low byte", end_low),
    change(ThinSchema, "a thin sheet not copied", |r, m| not_copied(Which::Schema, r, m)),
    change(ThinSchema, "the buffer after the sheet", |r, m| {
        flip(m.text.places().get_mut(r.count as usize).filter(|_| r.number == 0))
    }),
    change(ThinSchema, "the buffer, refused", |r, m| {
        flip(m.text.places().last_mut().filter(|_| r.number != 0))
    }),
    change(ThinSchema, "memory after the buffer", |_, m| flip(m.text.whole().last_mut())),
    change(ThinSchema, "a byte of the schema", |_, m| flip(m.schema.places().first_mut())),
];
