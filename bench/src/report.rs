//! The tables of `SPEED.md`, which stand between two marks; the rest of the
//! file is written by hand and left alone.

use crate::input::{DECLARATIONS, Operation, Size, TOKENS};
use crate::measure::Row as RowOf;
use crate::shape::Shape;
use crate::statistics::exponent;
use crate::table::{
    CHECKED, MARGIN_HEAD, Marks, Unit, checks, circumstances, grouped, margin, ratio, section,
    side_by_side, table, whole,
};

type Row = RowOf<Size>;

pub const TABLES: Marks =
    ["<!-- tables: begin, written by `make bench` -->\n", "<!-- tables: end -->\n"];

/// How many functions of a profile are shown.
const FUNCTIONS: usize = 8;

/// The profile of one input.
pub type Profile = (Size, Vec<(String, u64)>);

/// All tables.
pub fn tables(rows: &[Row], profiles: &[Profile], how: &str) -> String {
    let (faulty, clean): (Vec<&Row>, Vec<&Row>) = rows.iter().partition(|row| row.of.breaches);
    let parts = [
        circumstances(how),
        section("The inputs", inputs(&faulty)),
        section("What the papers with breaches ask of a check", shapes(&faulty)),
        section(
            "The check, papers with breaches: nanoseconds per call",
            checks(&SIZES, &faulty, sizes, Unit::Nanoseconds),
        ),
        section(
            "The check, papers with breaches: instructions per call",
            checks(&SIZES, &faulty, sizes, Unit::Instructions),
        ),
        section("The check, clean papers", clean_papers(&clean)),
        section("All messages of a paper", messages(&faulty)),
        section("The check with a list of 512 items", short_lists(&faulty)),
        section("Margin list: nanoseconds per call", margins(&faulty)),
        section("The store", store(&clean)),
        section("Growth with tokens: exponents, by instructions", by_tokens(&faulty)),
        section("Growth with declarations: exponents, by instructions", by_declarations(&faulty)),
        section("Growth of the store: exponents, by instructions", store_growth(&clean)),
        section("Where the check's instructions go", functions(profiles)),
    ];
    parts.join("\n\n")
}

fn sizes(row: &Row) -> Vec<String> {
    vec![grouped(row.of.declarations as u64), grouped(row.of.tokens as u64)]
}

/// Declarations, tokens, and what else stands in a row.
fn with_sizes(row: &Row, more: impl IntoIterator<Item = String>) -> Vec<String> {
    sizes(row).into_iter().chain(more).collect()
}

fn inputs(rows: &[&Row]) -> String {
    let head = [
        "declarations",
        "tokens of the paper",
        "bytes of the paper",
        "tokens of the schema",
        "bytes of the schema",
        "breaches",
    ];
    let line = |row: &&Row| {
        let [paper, schema] = row.bytes.map(|bytes| grouped(bytes as u64));
        let schema = [grouped(u64::from(row.tokens[1])), schema];
        with_sizes(row, [paper].into_iter().chain(schema).chain([row.items.to_string()]))
    };
    table(&head, rows.iter().map(line))
}

fn shapes(rows: &[&Row]) -> String {
    let head = [
        "declarations",
        "tokens",
        "names on elements",
        "keys on named elements",
        "merged elements",
        "calls",
        "tokens of MERGE clauses",
        "tokens without children",
    ];
    let line = |row: &&Row| {
        let Shape { names, keys, merged, calls, in_merge, leaves } = row.shape;
        let counts = [names, keys, merged, calls, in_merge, leaves];
        with_sizes(row, counts.map(|count| grouped(count as u64)))
    };
    table(&head, rows.iter().map(line))
}

const SIZES: [&str; 2] = ["declarations", "tokens"];

fn clean_papers(rows: &[&Row]) -> String {
    let head = [
        "declarations",
        "tokens",
        "Rust: check alone, HIR and store built before, ns",
        "ours: check from bytes, all reading included, ns",
        "ours / Rust",
        "Rust, instructions",
        "ours, instructions",
        "ours / Rust",
    ];
    let line = |row: &&Row| {
        let (rust, ours) = (row.find(Operation::RustCheck), row.find(Operation::Check));
        with_sizes(row, side_by_side(rust, ours, Unit::Nanoseconds))
    };
    table(&head, rows.iter().map(line))
}

fn messages(rows: &[&Row]) -> String {
    let head = [
        "declarations",
        "tokens",
        "messages",
        "ours: all, one call each, ns",
        "ours: one, ns",
        "ours: all, instructions",
        "ours: one / ours: check, instructions",
        "Rust: check alone, all messages written in it, ns",
    ];
    let line = |row: &&Row| {
        let (all, check) = (row.cell(Operation::Messages), row.cell(Operation::Check));
        let many = row.items as f64;
        let more = [
            row.items.to_string(),
            Unit::Nanoseconds.shown(Some(all)),
            whole(all.time.median / many),
            grouped(all.instructions),
            ratio(all.instructions as f64 / many, check.instructions as f64),
            Unit::Nanoseconds.shown(row.find(Operation::RustCheck)),
        ];
        with_sizes(row, more)
    };
    table(&head, rows.iter().map(line))
}

fn short_lists(rows: &[&Row]) -> String {
    let head = [
        "declarations",
        "tokens",
        "list of 4,096 items, ns",
        "list of 512 items, ns",
        "512 / 4,096",
        "list of 4,096 items, instructions",
        "list of 512 items, instructions",
        "512 / 4,096",
    ];
    let measured = |row: &&&Row| row.of.operations().contains(&Operation::CheckShort);
    let line = |row: &&Row| {
        let (long, short) = (row.find(Operation::Check), row.find(Operation::CheckShort));
        with_sizes(row, side_by_side(long, short, Unit::Nanoseconds))
    };
    table(&head, rows.iter().filter(measured).map(line))
}

fn margins(rows: &[&Row]) -> String {
    let line = |row: &&Row| with_sizes(row, margin(row, Unit::Nanoseconds));
    table(&[&SIZES[..], &MARGIN_HEAD].concat(), rows.iter().map(line))
}

const STORE: [(&str, Operation, Operation); 3] = [
    ("digest", Operation::RustDigest, Operation::Digest),
    ("three lists of names", Operation::RustNames, Operation::Names),
    ("endpoints of one type", Operation::RustEndpoints, Operation::Endpoints),
];

fn store(rows: &[&Row]) -> String {
    let head = [
        "operation",
        "declarations",
        "Rust: store built before, ns",
        "ours: from bytes, schema read in it, ns",
        "ours / Rust",
        "Rust, instructions",
        "ours, instructions",
        "ours / Rust",
    ];
    let line = |(name, rust, ours): (&str, Operation, Operation), row: &Row| {
        let mut line = vec![name.to_owned(), grouped(row.of.declarations as u64)];
        line.extend(side_by_side(row.find(rust), row.find(ours), Unit::Nanoseconds));
        line
    };
    let lines = STORE.iter().flat_map(|what| of_store(rows).map(|row| line(*what, row)));
    table(&head, lines)
}

/// The rows on which the store was measured, one for each schema.
fn of_store<'a>(rows: &[&'a Row]) -> impl Iterator<Item = &'a Row> {
    rows.iter().copied().filter(|row| row.of.tokens == TOKENS[0])
}

/// What is followed as it grows.
const GROWING: [&str; 5] = [
    "Rust: check alone",
    "Rust: decoding and check",
    "ours: check from bytes",
    "ours: reading alone",
    "ours: check less reading",
];

fn cost(row: &Row, what: &str) -> f64 {
    let [alone, whole_rust, ours, reading] =
        CHECKED.map(|operation| row.cell(operation).instructions as f64);
    match GROWING.iter().position(|name| *name == what) {
        Some(0) => alone,
        Some(1) => whole_rust,
        Some(2) => ours,
        Some(3) => reading,
        _ => ours - reading,
    }
}

fn row_of<'a>(rows: &[&'a Row], tokens: usize, declarations: usize) -> &'a Row {
    let size = Size { tokens, declarations, breaches: true };
    rows.iter().find(|row| row.of == size).expect("every size was measured")
}

/// The exponents of costs from each size to the next.
fn exponents(sizes: &[usize], costs: &[f64]) -> Vec<String> {
    let sizes = sizes.windows(2).map(|pair| [pair[0] as f64, pair[1] as f64]);
    let costs = costs.windows(2).map(|pair| [pair[0], pair[1]]);
    sizes.zip(costs).map(|(sizes, costs)| format!("{:.2}", exponent(sizes, costs))).collect()
}

fn by_tokens(rows: &[&Row]) -> String {
    let head = ["cost", "declarations", "10 to 100", "100 to 1,000", "1,000 to 4,000 tokens"];
    let line = |what: &str, declarations: usize| {
        let costs = TOKENS.map(|tokens| cost(row_of(rows, tokens, declarations), what));
        let mut line = vec![what.to_owned(), declarations.to_string()];
        line.extend(exponents(&TOKENS, &costs));
        line
    };
    table(&head, GROWING.iter().flat_map(|what| DECLARATIONS.map(|n| line(what, n))))
}

const BY_DECLARATIONS: [&str; 4] = ["cost", "tokens", "5 to 50", "50 to 500 declarations"];

fn by_declarations(rows: &[&Row]) -> String {
    let line = |what: &str, tokens: usize| {
        let costs = DECLARATIONS.map(|declarations| cost(row_of(rows, tokens, declarations), what));
        let mut line = vec![what.to_owned(), grouped(tokens as u64)];
        line.extend(exponents(&DECLARATIONS, &costs));
        line
    };
    table(&BY_DECLARATIONS, GROWING.iter().flat_map(|what| TOKENS.map(|n| line(what, n))))
}

/// The store's growth, in the columns of the table above without tokens.
fn store_growth(rows: &[&Row]) -> String {
    let head = BY_DECLARATIONS.map(|title| if title == "tokens" { "side" } else { title });
    let line = |name: &str, side: &str, operation: Operation| {
        let costs: Vec<f64> =
            of_store(rows).map(|row| row.cell(operation).instructions as f64).collect();
        let mut line = vec![name.to_owned(), side.to_owned()];
        line.extend(exponents(&DECLARATIONS, &costs));
        line
    };
    let lines =
        STORE.map(|(name, rust, ours)| [line(name, "Rust", rust), line(name, "ours", ours)]);
    table(&head, lines.into_iter().flatten())
}

fn functions(profiles: &[Profile]) -> String {
    let head = ["tokens", "declarations", "function", "instructions per check", "share"];
    let of_input = |(size, list): &Profile| {
        let all: u64 = list.iter().map(|(_, count)| count).sum();
        let line = |(name, count): &(String, u64)| {
            let share = format!("{:.1} %", 100.0 * *count as f64 / all as f64);
            let sizes = [grouped(size.tokens as u64), grouped(size.declarations as u64)];
            let name = format!("`{}`", name.trim_matches('_'));
            sizes.into_iter().chain([name, grouped(*count), share]).collect()
        };
        list.iter().take(FUNCTIONS).map(line).collect::<Vec<Vec<String>>>()
    };
    table(&head, profiles.iter().flat_map(of_input))
}
