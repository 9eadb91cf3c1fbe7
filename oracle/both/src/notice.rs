//! Shows that the comparison notices: what the archive gave is changed in one
//! place after the call, one change at a time, and each must be reported.

use nurbellat::raw::{self, Reply};
use oracle::answers::fit_list;
use oracle::compare::read_pair;
use oracle::items::{Find, ITEM_WIDTH, Item, items_by};
use oracle::sheet::read_schema;

use crate::ask::{ListItems, Memory};
use crate::known::reply;
use crate::lookups;
use crate::notice_thin;
use crate::operation::Operation::{self, *};
use crate::run::Run;

/// A change of what one operation gave. Where an answer has no such place it
/// is left as it is.
pub struct Change {
    pub what: &'static str,
    pub operation: Operation,
    edit: fn(&mut Reply, &mut Memory),
}

impl Change {
    pub fn apply(&self, operation: Operation, given: &mut Reply, memory: &mut Memory) {
        if operation == self.operation {
            (self.edit)(given, memory);
        }
    }
}

pub(crate) const fn change(
    operation: Operation,
    what: &'static str,
    edit: fn(&mut Reply, &mut Memory),
) -> Change {
    Change { what, operation, edit }
}

/// Adds one to a number.
fn raise<'a>(number: impl Into<Option<&'a mut u32>>) {
    if let Some(number) = number.into() {
        *number = number.wrapping_add(1);
    }
}

/// Changes one bit of a byte.
pub(crate) fn flip(byte: Option<&mut u8>) {
    if let Some(byte) = byte {
        *byte ^= 1;
    }
}

/// Adds one where it was refused.
fn raise_refused(given: &Reply, number: Option<&mut u32>) {
    raise(number.filter(|_| given.number != 0));
}

/// A number of the last item.
fn last_item(given: &Reply, memory: &mut Memory, at: usize) {
    let items = given.count as usize;
    raise(items.checked_sub(1).map(|last| &mut memory.list.places()[ITEM_WIDTH * last + at]));
}

/// The first two items next to each other that have one start change places.
fn swap_equal_starts(given: &Reply, memory: &mut Memory) {
    let written = &mut memory.list.places()[..ITEM_WIDTH * given.count as usize];
    let starts: Vec<u32> = written.chunks(ITEM_WIDTH).map(|item| item[START]).collect();
    if let Some(first) = starts.windows(2).position(|two| two[0] == two[1]) {
        let (one, other) = written[ITEM_WIDTH * first..].split_at_mut(ITEM_WIDTH);
        one.swap_with_slice(&mut other[..ITEM_WIDTH]);
    }
}

/// The items of an answer in the order in which another operation has them.
fn listed_by(operation: ListItems, given: &mut Reply, memory: &mut Memory) {
    let Memory { statement, schema, list, .. } = memory;
    *given = operation(statement.held(), schema.held(), list.places());
}

/// The items that another lookup of names gives.
fn looked_up(find: Find, given: &mut Reply, memory: &mut Memory) {
    let Memory { statement, schema, list, .. } = memory;
    let Ok((statement, schema)) = read_pair(statement.held(), schema.held()) else { return };
    let items = fit_list(items_by(find, &statement, &schema), list.places().len());
    *given = reply(items.as_ref().map(Vec::len).map_err(|refusal| *refusal));
    let numbers = items.iter().flatten().flat_map(Item::numbers);
    list.places().iter_mut().zip(numbers).for_each(|(place, number)| *place = number);
}

/// What a message of a function begins with.
const OF_FUNCTIONS: [&[u8]; 2] = [b"unknown function `", b"function `"];

/// A function's name in lower case, as all else of its message is.
fn in_lower_case(given: &Reply, memory: &mut Memory) {
    let text = &mut memory.text.places()[..given.count as usize];
    if OF_FUNCTIONS.iter().any(|phrase| text.starts_with(phrase)) {
        text.make_ascii_lowercase();
    }
}

/// The pairs of a RelType that is declared in other case.
fn endpoints_in_other_case(given: &mut Reply, memory: &mut Memory) {
    let Memory { schema, list, text, .. } = memory;
    let (Ok(sheet), Ok(name)) = (read_schema(schema.held()), str::from_utf8(text.held())) else {
        return;
    };
    if let Some(other) = lookups::in_other_case(&sheet, 102, name) {
        *given = raw::relationship_endpoints(schema.held(), other.as_bytes(), list.places());
    }
}

/// Names in order without their case.
fn order_without_case(given: &Reply, memory: &mut Memory) {
    let Memory { schema, list, .. } = memory;
    if let Ok(sheet) = read_schema(schema.held()) {
        let name = |number: &u32| sheet.names[*number as usize].to_ascii_lowercase();
        list.places()[..given.count as usize].sort_by_key(name);
    }
}

/// 10 where labels differ in case.
fn refuse_in_other_case(given: &mut Reply, memory: &mut Memory) {
    let sheet = read_schema(memory.schema.held()).ok();
    if let Some(token) = sheet.and_then(|sheet| lookups::label_in_other_case(&sheet)) {
        *given = Reply { number: 10, sheet: 2, place: token as u32, count: 0 };
    }
}

/// The list's number after so many written.
fn after_list(given: &Reply, memory: &mut Memory, width: usize) {
    let written = width * given.count as usize;
    raise(memory.list.places().get_mut(written).filter(|_| given.number == 0));
}

/// Two groups of so many numbers, the first and the second, change places.
fn swap_first(given: &Reply, memory: &mut Memory, width: usize) {
    if given.count > 1 {
        let (first, rest) = memory.list.places().split_at_mut(width);
        first.swap_with_slice(&mut rest[..width]);
    }
}

/// Where an item has its start.
const START: usize = 1;

/// Kinds of tokens.
pub(crate) const NAME: u8 = 50;
const NUMBER: u8 = 51;

/// Bytes of a sheet's sizes, which stand first.
const SIZES: usize = 12;

/// The value of a token of a written sheet.
pub(crate) fn token_value(given: &Reply, memory: &mut Memory, token: usize) {
    if given.count > 0 {
        let sheet = memory.text.places();
        flip(Some(&mut sheet[SIZES + tokens_of(sheet) + 4 * token]));
    }
}

/// The first size of a sheet; no sheet has more than two bytes of it.
fn tokens_of(sheet: &[u8]) -> usize {
    usize::from(u16::from_le_bytes([sheet[0], sheet[1]]))
}

/// The kind of the last token of a written sheet, which in a row's is a cell.
pub(crate) fn last_kind(given: &Reply, memory: &mut Memory) {
    if given.count > 0 {
        let sheet = memory.text.places();
        flip(Some(&mut sheet[SIZES + tokens_of(sheet) - 1]));
    }
}

/// The value of the last token of a kind in a written sheet.
pub(crate) fn last_of_kind(given: &Reply, memory: &mut Memory, kind: u8) {
    let sheet = memory.text.places();
    let kinds = &sheet[..given.count as usize];
    let kinds = kinds.get(SIZES..).map_or(&[][..], |behind| &behind[..tokens_of(sheet)]);
    if let Some(token) = kinds.iter().rposition(|found| *found == kind) {
        token_value(given, memory, token);
    }
}

/// The sheet of the first in place of that of two.
fn first_alone(given: &mut Reply, memory: &mut Memory) {
    let Memory { statement, text, .. } = memory;
    if given.number == 0 {
        let length = statement.held().len().min(given.count as usize);
        text.places()[..length].copy_from_slice(&statement.held()[..length]);
        given.count = length as u32;
    }
}

/// The two joined the other way round.
fn turned(given: &mut Reply, memory: &mut Memory) {
    let Memory { statement, second, text, .. } = memory;
    *given = raw::join_statements(second.held(), statement.held(), text.places());
}

/// One refusal becomes another of the same sheet and place.
pub(crate) fn confuse(number: &mut u32, one: u32, other: u32) {
    if *number == one {
        *number = other;
    }
}

/// An accepted answer becomes a refusal, a refused one another.
pub(crate) fn refuse(given: &mut Reply, number: u32) {
    *given = Reply { number, sheet: 0, place: 0, count: 0 };
}

pub const CHANGES: &[Change] = &[
    change(ReadStatement, "the refusal's number", |r, _| r.number += (r.number > 0) as u32),
    change(ReadStatement, "the refusal's sheet", |r, _| r.sheet *= 2),
    change(ReadStatement, "the refusal's place", |r, _| r.place += (r.place > 0) as u32),
    change(ReadStatement, "an accepted sheet refused", |r, _| r.number = r.number.max(1)),
    change(ReadStatement, "a refused sheet accepted", |r, _| refuse(r, 0)),
    change(ReadStatement, "a count", |r, _| r.count += 1),
    change(ReadStatement, "a byte of the statement", |_, m| flip(m.statement.places().last_mut())),
    change(ReadSchema, "12 and 13 confused", |r, _| r.number -= (r.number == 13) as u32),
    change(ReadSchema, "the refusal's sheet", |r, _| r.sheet /= 2),
    change(ReadSchema, "the refusal's place", |r, _| r.place += (r.number > 9) as u32),
    change(ReadSchema, "a byte of the schema", |_, m| flip(m.schema.places().first_mut())),
    change(ReadSchema, "10 where labels differ in case", refuse_in_other_case),
    change(CheckSchemaAware, "an item's code", |r, m| last_item(r, m, 0)),
    change(CheckSchemaAware, "an item's start", |r, m| last_item(r, m, START)),
    change(CheckSchemaAware, "an item's end", |r, m| last_item(r, m, 2)),
    change(CheckSchemaAware, "an item's owner", |r, m| last_item(r, m, 3)),
    change(CheckSchemaAware, "an item's stage", |r, m| last_item(r, m, 4)),
    change(CheckSchemaAware, "an item's ordinal", |r, m| last_item(r, m, 5)),
    change(CheckSchemaAware, "an item's clause", |r, m| last_item(r, m, 6)),
    change(CheckSchemaAware, "the order of two items", |r, m| swap_first(r, m, ITEM_WIDTH)),
    change(CheckSchemaAware, "the margin list's order", |r, m| listed_by(raw::margin_list, r, m)),
    change(CheckSchemaAware, "the number of items", |r, _| r.count = r.count.saturating_sub(1)),
    change(CheckSchemaAware, "14 where the items fit", |r, _| refuse(r, 14)),
    change(CheckSchemaAware, "no 14", |r, _| r.number %= 14),
    change(CheckSchemaAware, "a place of 14", |r, _| r.place += (r.number == 14) as u32),
    change(CheckSchemaAware, "the schema's refusal for the statement's", |r, _| {
        r.sheet += (r.sheet == 1) as u32
    }),
    change(CheckSchemaAware, "the list after the items", |r, m| after_list(r, m, ITEM_WIDTH)),
    change(CheckSchemaAware, "the list's last place", |_, m| raise(m.list.places().last_mut())),
    change(CheckSchemaAware, "the list, refused", |r, m| {
        raise_refused(r, m.list.places().first_mut())
    }),
    change(CheckSchemaAware, "memory before the list", |_, m| raise(m.list.whole().first_mut())),
    change(CheckSchemaAware, "memory after the list", |_, m| raise(m.list.whole().last_mut())),
    change(CheckSchemaAware, "a byte of the statement", |_, m| {
        flip(m.statement.places().first_mut())
    }),
    change(CheckSchemaAware, "a byte of the schema", |_, m| flip(m.schema.places().last_mut())),
    change(CheckSchemaAware, "functions by exact bytes", |r, m| looked_up(lookups::exactly, r, m)),
    change(CheckSchemaAware, "[ folded as {", |r, m| looked_up(lookups::brackets_too, r, m)),
    change(CheckSchemaAware, "@ folded as `", |r, m| looked_up(lookups::at_signs_too, r, m)),
    change(CheckSchemaAware, "É folded as é", |r, m| looked_up(lookups::accents_too, r, m)),
    change(CheckSchemaAware, "procedures folded", |r, m| looked_up(lookups::procedures_too, r, m)),
    change(CheckSchemaAware, "labels folded", |r, m| looked_up(lookups::labels_too, r, m)),
    change(CheckSchemaAware, "types folded", |r, m| looked_up(lookups::types_too, r, m)),
    change(CheckSchemaAware, "the last function of a folded name", |r, m| {
        looked_up(lookups::last_counts, r, m)
    }),
    change(CheckSchemaAware, "a function as it is spelt before an earlier one", |r, m| {
        looked_up(lookups::spelling_counts, r, m)
    }),
    change(MarginList, "an item's code", |r, m| last_item(r, m, 0)),
    change(MarginList, "an item's start", |r, m| last_item(r, m, START)),
    change(MarginList, "an item's ordinal", |r, m| last_item(r, m, 5)),
    change(MarginList, "an item's clause", |r, m| last_item(r, m, 6)),
    change(MarginList, "the order of two items", |r, m| swap_first(r, m, ITEM_WIDTH)),
    change(MarginList, "the order of two items of one start", |r, m| swap_equal_starts(r, m)),
    change(MarginList, "the check's order", |r, m| listed_by(raw::check_schema_aware, r, m)),
    change(MarginList, "the number of items", |r, _| r.count = r.count.saturating_sub(1)),
    change(MarginList, "numbers counted, not items", |r, _| r.count *= ITEM_WIDTH as u32),
    change(MarginList, "14 where the items fit", |r, _| refuse(r, 14)),
    change(MarginList, "16 for 14", |r, _| confuse(&mut r.number, 14, 16)),
    change(MarginList, "no 14", |r, _| r.number %= 14),
    change(MarginList, "the schema's refusal for the statement's", |r, _| {
        r.sheet += (r.sheet == 1) as u32
    }),
    change(MarginList, "the list after the items", |r, m| after_list(r, m, ITEM_WIDTH)),
    change(MarginList, "the list's last place", |_, m| raise(m.list.places().last_mut())),
    change(MarginList, "the list, refused", |r, m| raise_refused(r, m.list.places().first_mut())),
    change(MarginList, "memory before the list", |_, m| raise(m.list.whole().first_mut())),
    change(MarginList, "memory after the list", |_, m| raise(m.list.whole().last_mut())),
    change(MarginList, "a byte of the statement", |_, m| flip(m.statement.places().last_mut())),
    change(MarginList, "a byte of the schema", |_, m| flip(m.schema.places().first_mut())),
    change(Message, "a byte of the text", |r, m| {
        flip(m.text.places().get_mut(r.count as usize / 2).filter(|_| r.count > 0))
    }),
    change(Message, "the text's last byte", |r, m| {
        flip(m.text.places()[..r.count as usize].last_mut())
    }),
    change(Message, "the number of bytes", |r, _| r.count += (r.count > 0) as u32),
    change(Message, "the buffer after the text", |r, m| {
        flip(m.text.places().get_mut(r.count as usize).filter(|_| r.number == 0))
    }),
    change(Message, "the buffer, refused", |r, m| {
        flip(m.text.places().last_mut().filter(|_| r.number != 0))
    }),
    change(Message, "memory after the buffer", |_, m| flip(m.text.whole().last_mut())),
    change(Message, "15 for 16", |r, _| r.number -= (r.number == 16) as u32),
    change(Message, "16 for 15", |r, _| r.number += (r.number == 15) as u32),
    change(Message, "16 where the text fits", |r, _| refuse(r, 16)),
    change(Message, "a function's name in lower case", |r, m| in_lower_case(r, m)),
    change(LabelNames, "names in order without their case", |r, m| order_without_case(r, m)),
    change(LabelNames, "a name's number", |r, m| {
        raise(m.list.places()[..r.count as usize].last_mut())
    }),
    change(LabelNames, "the order of two names", |r, m| swap_first(r, m, 1)),
    change(LabelNames, "the list after the names", |r, m| after_list(r, m, 1)),
    change(LabelNames, "the list, refused", |r, m| raise_refused(r, m.list.places().last_mut())),
    change(RelTypeNames, "a name's number", |r, m| {
        raise(m.list.places()[..r.count as usize].first_mut())
    }),
    change(RelTypeNames, "the number of names", |r, _| r.count = r.count.saturating_sub(1)),
    change(ParameterNames, "a name's number", |r, m| {
        raise(m.list.places()[..r.count as usize].first_mut())
    }),
    change(ParameterNames, "no 16", |r, _| r.number %= 16),
    change(RelationshipEndpoints, "a pair's end", |r, m| {
        raise(m.list.places()[..2 * r.count as usize].last_mut())
    }),
    change(RelationshipEndpoints, "the pairs of a type in other case", endpoints_in_other_case),
    change(RelationshipEndpoints, "start and end of a pair", |r, m| {
        if r.count > 0 {
            m.list.places().swap(0, 1);
        }
    }),
    change(RelationshipEndpoints, "the order of two pairs", |r, m| swap_first(r, m, 2)),
    change(RelationshipEndpoints, "numbers counted, not pairs", |r, _| r.count *= 2),
    change(RelationshipEndpoints, "the list after the pairs", |r, m| after_list(r, m, 2)),
    change(RelationshipEndpoints, "the list, refused", |r, m| {
        raise_refused(r, m.list.places().first_mut())
    }),
    change(RelationshipEndpoints, "a byte of the RelType", |_, m| {
        flip(m.text.places().first_mut())
    }),
    change(SchemaDigest, "a byte of the digest", |r, m| m.digest[31] ^= (r.number == 0) as u8),
    change(SchemaDigest, "a byte of a refused digest", |r, m| m.digest[0] |= (r.number != 0) as u8),
    change(SchemaDigest, "the refusal's place", |r, _| r.place += (r.number != 0) as u32),
    change(SchemaDigest, "the number of bytes", |r, _| r.count /= 2),
    change(RowStatement, "17 for 18", |r, _| confuse(&mut r.number, 18, 17)),
    change(RowStatement, "18 for 17", |r, _| confuse(&mut r.number, 17, 18)),
    change(RowStatement, "16 for 19", |r, _| confuse(&mut r.number, 19, 16)),
    change(RowStatement, "19 for 16", |r, _| confuse(&mut r.number, 16, 19)),
    change(RowStatement, "19 for 5", |r, _| confuse(&mut r.number, 5, 19)),
    change(RowStatement, "the name of 5", |r, _| r.place += (r.number == 5) as u32),
    change(RowStatement, "the sheet of 5", |r, _| r.sheet = 0),
    change(RowStatement, "16 where the sheet fits", |r, _| refuse(r, 16)),
    change(RowStatement, "a refused row accepted", |r, _| confuse(&mut r.number, 18, 0)),
    change(RowStatement, "the number of bytes", |r, _| r.count += (r.count > 0) as u32),
    change(RowStatement, "the kind of the last cell", |r, m| last_kind(r, m)),
    change(RowStatement, "the span's start", |r, m| token_value(r, m, 5)),
    change(RowStatement, "the span's end", |r, m| token_value(r, m, 6)),
    change(RowStatement, "the number of columns", |r, m| token_value(r, m, 8)),
    change(RowStatement, "the names' last byte", |r, m| {
        flip(m.text.places()[..r.count as usize].last_mut())
    }),
    change(RowStatement, "the buffer after the sheet", |r, m| {
        flip(m.text.places().get_mut(r.count as usize).filter(|_| r.number == 0))
    }),
    change(RowStatement, "the buffer, refused", |r, m| {
        flip(m.text.places().first_mut().filter(|_| r.number != 0))
    }),
    change(RowStatement, "memory before the buffer", |_, m| flip(m.text.whole().first_mut())),
    change(RowStatement, "memory after the buffer", |_, m| flip(m.text.whole().last_mut())),
    change(RowStatement, "a byte of the text", |_, m| flip(m.plan.places().last_mut())),
    change(RowStatement, "a byte of the label", |_, m| flip(m.label.places().first_mut())),
    change(NextRow, "17 for 18", |_, m| confuse(&mut m.row.number, 18, 17)),
    change(NextRow, "18 for 17", |_, m| confuse(&mut m.row.number, 17, 18)),
    change(NextRow, "a row at the end", |_, m| confuse(&mut m.row.number, 18, 0)),
    change(NextRow, "a broken row accepted", |_, m| confuse(&mut m.row.number, 17, 0)),
    change(NextRow, "the start", |_, m| m.row.start ^= 1),
    change(NextRow, "the stop", |_, m| m.row.stop += (m.row.number == 0) as usize),
    change(NextRow, "where the next begins", |_, m| m.row.next -= (m.row.number == 0) as usize),
    change(NextRow, "where the text breaks", |_, m| m.row.stop += (m.row.number == 17) as usize),
    change(NextRow, "a byte of the text", |_, m| flip(m.plan.places().first_mut())),
    change(JoinStatements, "the refusal's number", |r, _| r.number += (r.number > 0) as u32),
    change(JoinStatements, "the refusal's place", |r, _| r.place += (r.number != 0) as u32),
    change(JoinStatements, "the first's refusal for the second's", |r, _| {
        confuse(&mut r.sheet, 2, 1)
    }),
    change(JoinStatements, "the second's refusal for the first's", |r, _| {
        confuse(&mut r.sheet, 1, 2)
    }),
    change(JoinStatements, "16 for 20", |r, _| confuse(&mut r.number, 20, 16)),
    change(JoinStatements, "20 for 16", |r, _| confuse(&mut r.number, 16, 20)),
    change(JoinStatements, "19 for 20", |r, _| confuse(&mut r.number, 20, 19)),
    change(JoinStatements, "20 of sheet 1", |r, _| r.sheet += (r.number == 20) as u32),
    change(JoinStatements, "20 before the second's refusals", |r, _| {
        if r.sheet == 2 {
            refuse(r, 20)
        }
    }),
    change(JoinStatements, "a sheet past a limit accepted", |r, _| confuse(&mut r.number, 20, 0)),
    change(JoinStatements, "16 where the sheet fits", |r, _| refuse(r, 16)),
    change(JoinStatements, "20 where the sheet fits", |r, _| {
        if r.number == 0 {
            refuse(r, 20)
        }
    }),
    change(JoinStatements, "the number of bytes", |r, _| r.count += (r.count > 0) as u32),
    change(JoinStatements, "the sheet of the first alone", first_alone),
    change(JoinStatements, "the second before the first", turned),
    change(JoinStatements, "the number of tokens", |r, m| {
        flip(m.text.places().first_mut().filter(|_| r.number == 0))
    }),
    change(JoinStatements, "the number of clauses", |r, m| token_value(r, m, 0)),
    change(JoinStatements, "the number of the last name", |r, m| last_of_kind(r, m, NAME)),
    change(JoinStatements, "the last number of a span", |r, m| last_of_kind(r, m, NUMBER)),
    change(JoinStatements, "the kind of the last token", |r, m| last_kind(r, m)),
    change(JoinStatements, "the sheet's last byte", |r, m| {
        flip(m.text.places()[..r.count as usize].last_mut())
    }),
    change(JoinStatements, "the buffer after the sheet", |r, m| {
        flip(m.text.places().get_mut(r.count as usize).filter(|_| r.number == 0))
    }),
    change(JoinStatements, "the buffer, refused", |r, m| {
        flip(m.text.places().first_mut().filter(|_| r.number != 0))
    }),
    change(JoinStatements, "the buffer's end, refused", |r, m| {
        flip(m.text.places().last_mut().filter(|_| r.number != 0))
    }),
    change(JoinStatements, "memory before the buffer", |_, m| flip(m.text.whole().first_mut())),
    change(JoinStatements, "memory after the buffer", |_, m| flip(m.text.whole().last_mut())),
    change(JoinStatements, "a byte of the first", |_, m| flip(m.statement.places().first_mut())),
    change(JoinStatements, "a byte of the second", |_, m| flip(m.second.places().last_mut())),
];

/// What one changed run said: the change, and its difference, if any.
pub struct Noticed {
    pub change: &'static Change,
    pub difference: Option<String>,
}

impl Noticed {
    /// Whether the difference is one of the operation that was changed.
    pub fn rightly(&self) -> bool {
        let named = format!("{:?}, ", self.change.operation);
        self.difference.as_ref().is_some_and(|said| said.contains(&named))
    }
}

/// Every change, each on the same pairs.
pub fn notice(run: Run) -> impl Iterator<Item = Noticed> {
    CHANGES.iter().chain(notice_thin::CHANGES).map(move |change| {
        let difference = run.compare(Some(change)).differences.into_iter().next();
        Noticed { change, difference }
    })
}
