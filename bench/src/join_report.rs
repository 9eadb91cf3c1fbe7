//! The tables of statements that are joined, which stand behind those of the
//! comma-separated texts.

use crate::input::Operation;
use crate::measure::JoinRow;
use crate::table::{Beside, beside_the_oracle, grouped, section, table};

pub const OF_JOINS: [Beside; 2] = [
    ("joining", Operation::OracleJoinStatements, Operation::JoinStatements),
    ("reading both sheets", Operation::OracleReadStatements, Operation::ReadStatements),
];

/// Both tables. There is no published Rust for them.
pub fn join_tables(rows: &[JoinRow]) -> String {
    let inputs = rows.iter().map(|row| (row.of.word(), &row.cells[..]));
    let operations = beside_the_oracle("join", inputs, &OF_JOINS);
    let parts = [
        section("The statements that are joined", sheets(rows)),
        section("Joining, the oracle's joiner for want of a published one", operations),
    ];
    parts.join("\n\n")
}

fn sheets(rows: &[JoinRow]) -> String {
    let head = [
        "join",
        "what it has",
        "bytes of the first",
        "bytes of the second",
        "tokens joined",
        "names joined",
        "bytes of text joined",
    ];
    let line = |row: &JoinRow| {
        let bytes = row.bytes.map(|bytes| grouped(bytes as u64));
        let sizes = row.sizes.map(|size| grouped(u64::from(size)));
        let words = [row.of.word(), row.of.what().to_owned()];
        words.into_iter().chain(bytes).chain(sizes).collect()
    };
    table(&head, rows.iter().map(line))
}
