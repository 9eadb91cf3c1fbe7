//! The tables of the worst papers and schemas, which stand between marks of
//! their own.

use crate::input::Operation;
use crate::measure::{Cell, Row as RowOf};
use crate::table::{
    MARGIN_HEAD, Marks, NONE, Unit, checks, circumstances, grouped, margin, over, section,
    side_by_side, table,
};
use crate::worst::Worst;

type Row = RowOf<Worst>;

pub const WORST: Marks =
    ["<!-- worst papers: begin, written by `make bench` -->\n", "<!-- worst papers: end -->\n"];

const TIME: Unit = Unit::Milliseconds;

/// All tables, and the longest call.
pub fn worst_tables(rows: &[Row], how: &str) -> String {
    let (papers, schemas): (Vec<&Row>, Vec<&Row>) = rows.iter().partition(|row| row.of.is_paper());
    let word = |row: &Row| vec![row.of.word()];
    let parts = [
        circumstances(how),
        section("The papers", shapes(&papers)),
        section("The check: milliseconds per call", checks(&["paper"], &papers, word, TIME)),
        section(
            "The check: instructions per call",
            checks(&["paper"], &papers, word, Unit::Instructions),
        ),
        section("Margin list: milliseconds per call", margins(&papers)),
        section("Messages: milliseconds", messages(&papers)),
        section("The worst schemas", shapes(&schemas)),
        section("The store on the worst schemas: milliseconds per call", store(&schemas)),
        longest(rows),
    ];
    parts.join("\n\n")
}

fn shapes(rows: &[&Row]) -> String {
    let head = [
        "paper",
        "what the statement has",
        "what the schema has",
        "tokens of the statement",
        "bytes of the statement",
        "tokens of the schema",
        "bytes of the schema",
        "breaches",
    ];
    let line = |row: &&Row| {
        let [statement, schema] = row.of.what();
        let mut line = vec![row.of.word(), statement.to_owned(), schema.to_owned()];
        for sheet in 0..2 {
            line.extend([u64::from(row.tokens[sheet]), row.bytes[sheet] as u64].map(grouped));
        }
        line.push(grouped(row.items as u64));
        line
    };
    table(&head, rows.iter().map(line))
}

/// The last two columns are what the margin list takes beyond the check.
fn margins(rows: &[&Row]) -> String {
    let less_head = ["margin list less check", "margin list less check, instructions"];
    let line = |row: &&Row| {
        let less = [TIME, Unit::Instructions].map(|unit| {
            let number = |operation| unit.number(row.find(operation));
            unit.less(number(Operation::Margin), number(Operation::Check))
        });
        [vec![row.of.word()], margin(row, TIME), less.to_vec()].concat()
    };
    table(&[&["paper"][..], &MARGIN_HEAD, &less_head].concat(), rows.iter().map(line))
}

fn messages(rows: &[&Row]) -> String {
    let head = [
        "paper",
        "messages",
        "held against the Rust's",
        "ours: the middle one",
        "ours: the last one",
        "ours: the last one refused, 16,384 bytes lent",
        "ours: all, measured",
        "ours: all, the middle one times their number",
        "ours: the middle one / ours: check",
        "Rust: check alone, all messages written in it",
    ];
    let line = |row: &&Row| {
        let [middle, last, short, all, check, rust] = [
            Operation::Message,
            Operation::LastMessage,
            Operation::LastMessageShort,
            Operation::Messages,
            Operation::Check,
            Operation::RustCheck,
        ]
        .map(|operation| row.find(operation));
        let product = TIME.number(middle).map(|one| TIME.plain(one * row.items as f64));
        vec![
            row.of.word(),
            grouped(row.items as u64),
            grouped(row.compared as u64),
            TIME.shown(middle),
            TIME.shown(last),
            TIME.shown(short),
            TIME.shown(all),
            product.unwrap_or(NONE.into()),
            over(TIME.number(middle), TIME.number(check)),
            TIME.shown(rust),
        ]
    };
    table(&head, rows.iter().map(line))
}

fn store(rows: &[&Row]) -> String {
    let head = [
        "schema",
        "operation",
        "Rust: store built before",
        "ours: from bytes, schema read in it",
        "ours / Rust",
        "Rust, instructions",
        "ours, instructions",
        "ours / Rust",
    ];
    let of_row = |row: &&Row| {
        let line = |(name, rust, ours): (&str, Option<Operation>, Operation)| {
            let rust = rust.and_then(|operation| row.find(operation));
            let first = vec![row.of.word(), name.to_owned()];
            [first, side_by_side(rust, row.find(ours), TIME)].concat()
        };
        row.of.store().into_iter().map(line).collect::<Vec<_>>()
    };
    table(&head, rows.iter().flat_map(of_row))
}

/// The longest time of one call of ours, over all rows.
fn longest(rows: &[Row]) -> String {
    let cells = rows.iter().flat_map(|row| row.cells.iter().map(move |cell| (row, cell)));
    let ours = cells.filter(|(_, cell): &(&Row, &Cell)| cell.operation.is_one_call_of_ours());
    let longest = ours.max_by(|(_, a), (_, b)| a.time.median.total_cmp(&b.time.median));
    longest.map_or(String::new(), |(row, cell)| {
        let (time, word) = (TIME.plain(cell.time.median), cell.operation.word());
        format!("The longest call of ours in these tables: {time} ms, {word} of {}.", row.of.word())
    })
}
