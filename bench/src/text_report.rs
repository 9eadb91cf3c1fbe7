//! The tables of comma-separated texts, which stand behind those of the
//! papers.

use crate::input::Operation;
use crate::measure::TextRow;
use crate::table::{Beside, beside_the_oracle, grouped, section, table};

pub const OF_TEXTS: [Beside; 3] = [
    ("sheet of the middle row", Operation::OracleRowStatement, Operation::RowStatement),
    ("all rows, one by one", Operation::OracleRows, Operation::Rows),
    (
        "sheets of all rows, each cut out with the header",
        Operation::OracleRowSheets,
        Operation::RowSheets,
    ),
];

/// Both tables. There is no published Rust for them.
pub fn text_tables(rows: &[TextRow]) -> String {
    let inputs = rows.iter().map(|row| (row.of.word(), &row.cells[..]));
    let operations = beside_the_oracle("text", inputs, &OF_TEXTS);
    let parts = [
        section("The comma-separated texts", texts(rows)),
        section("Rows, the oracle's reader for want of a published one", operations),
    ];
    parts.join("\n\n")
}

fn texts(rows: &[TextRow]) -> String {
    let head = ["text", "what it has", "bytes", "rows behind the header"];
    let line = |row: &TextRow| {
        let numbers = [row.bytes, row.rows].map(|number| grouped(number as u64));
        [row.of.word(), row.of.what().to_owned()].into_iter().chain(numbers).collect()
    };
    table(&head, rows.iter().map(line))
}
