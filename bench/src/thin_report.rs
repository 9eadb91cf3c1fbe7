//! The tables of pairs in both kinds of sheets, which stand behind those of the
//! statements that are joined.

use crate::input::Operation;
use crate::measure::{Cell, ThinRow};
use crate::table::{Beside, Unit, beside_the_oracle, grouped, section, side_by_side, table};

pub const OF_THIN: [Beside; 3] = [
    ("statement converted", Operation::OracleThinStatement, Operation::ThinStatement),
    ("schema converted", Operation::OracleThinSchema, Operation::ThinSchema),
    ("thin statement copied", Operation::OracleThinCopy, Operation::ThinCopy),
];

/// What is done with both kinds: a name, the operation on the first, on the thin.
pub const OF_BOTH_KINDS: [(&str, Operation, Operation); 2] = [
    ("reading both sheets", Operation::Reading, Operation::ReadingThin),
    ("check", Operation::Check, Operation::CheckThin),
];

/// All three tables. There is no published Rust for them.
pub fn thin_tables(rows: &[ThinRow]) -> String {
    let inputs = rows.iter().map(|row| (row.of.word(), &row.cells[..]));
    let converted = beside_the_oracle("pair", inputs, &OF_THIN);
    let parts = [
        section("The pairs in both kinds of sheets", sheets(rows)),
        section("Thin sheets beside those of the first kind", both_kinds(rows)),
        section("Converting, the oracle's converter for want of a published one", converted),
    ];
    parts.join("\n\n")
}

fn sheets(rows: &[ThinRow]) -> String {
    let head =
        ["pair", "what it has", "bytes of the statement", "thin", "bytes of the schema", "thin"];
    let line = |row: &ThinRow| {
        let [[statement, schema], [thin, thin_schema]] = row.bytes;
        let bytes = [statement, thin, schema, thin_schema].map(|bytes| grouped(bytes as u64));
        [row.of.word(), row.of.what().to_owned()].into_iter().chain(bytes).collect()
    };
    table(&head, rows.iter().map(line))
}

fn both_kinds(rows: &[ThinRow]) -> String {
    let head = [
        "pair",
        "operation",
        "first kind, ns",
        "thin, ns",
        "thin / first",
        "first kind, instructions",
        "thin, instructions",
        "thin / first",
    ];
    let of_pair = |row: &ThinRow| {
        let find = |wanted| row.cells.iter().find(|cell: &&Cell| cell.operation == wanted);
        let line = |(name, first, thin): (&str, Operation, Operation)| {
            let words = vec![row.of.word(), name.to_owned()];
            [words, side_by_side(find(first), find(thin), Unit::Nanoseconds)].concat()
        };
        OF_BOTH_KINDS.map(line)
    };
    table(&head, rows.iter().flat_map(of_pair))
}
