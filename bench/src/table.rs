//! Tables of Markdown, and what the tables of made and of worst papers share.

use std::fmt::Write;

use crate::input::Operation;
use crate::machine::{machine, today, tools};
use crate::measure::{Cell, Row};

/// The two marks between which tables stand.
pub type Marks = [&'static str; 2];

/// The document with new tables between its marks.
pub fn replaced(document: &str, [begin, end]: Marks, tables: &str) -> Result<String, String> {
    let (before, rest) = document.split_once(begin).ok_or("no mark where the tables begin")?;
    let (_, after) = rest.split_once(end).ok_or("no mark where the tables end")?;
    Ok(format!("{before}{begin}\n{tables}\n{end}{after}"))
}

/// When, on what and how it was measured.
pub fn circumstances(how: &str) -> String {
    format!("{}. {}; {}.\n{how}", today(), machine(), tools())
}

pub fn section(title: &str, body: String) -> String {
    format!("### {title}\n\n{}", body.trim_end())
}

/// Columns of words; the others are of numbers and stand to the right.
const WORDS: [&str; 12] = [
    "operation",
    "schema",
    "cost",
    "side",
    "function",
    "paper",
    "what the statement has",
    "what the schema has",
    "text",
    "join",
    "pair",
    "what it has",
];

/// A table of Markdown.
pub fn table(head: &[&str], rows: impl IntoIterator<Item = Vec<String>>) -> String {
    let side = |title: &&str| if WORDS.contains(title) { "---|" } else { "---:|" };
    let sides: String = head.iter().map(side).collect();
    let mut out = format!("| {} |\n|{sides}\n", head.join(" | "));
    for row in rows {
        writeln!(out, "| {} |", row.join(" | ")).expect("a String takes all");
    }
    out
}

/// A number with a comma before every three digits.
pub fn grouped(number: u64) -> String {
    let digits = number.to_string();
    let mut out = String::new();
    for (i, digit) in digits.chars().enumerate() {
        if i > 0 && (digits.len() - i).is_multiple_of(3) {
            out.push(',');
        }
        out.push(digit);
    }
    out
}

pub fn whole(number: f64) -> String {
    grouped(number.max(0.0).round() as u64)
}

/// Nanoseconds as milliseconds.
fn milliseconds(nanoseconds: f64) -> String {
    let thousandths = (nanoseconds.max(0.0) / 1e3).round() as u64;
    format!("{}.{:03}", grouped(thousandths / 1_000), thousandths % 1_000)
}

pub fn ratio(ours: f64, theirs: f64) -> String {
    let ratio = ours / theirs;
    if ratio < 10.0 { format!("{ratio:.2}") } else { whole(ratio) }
}

/// What stands where nothing was measured.
pub const NONE: &str = "–";

/// A ratio of two numbers that may not be there.
pub fn over(ours: Option<f64>, theirs: Option<f64>) -> String {
    ours.zip(theirs).map_or(NONE.into(), |(ours, theirs)| ratio(ours, theirs))
}

/// What a table gives of a cell.
#[derive(Clone, Copy, Debug, PartialEq, Eq)]
pub enum Unit {
    Nanoseconds,
    Milliseconds,
    Instructions,
}

impl Unit {
    /// The cell's number, if there is one.
    pub fn number(self, cell: Option<&Cell>) -> Option<f64> {
        let cell = cell?;
        match self {
            Unit::Instructions => (cell.instructions > 0).then_some(cell.instructions as f64),
            _ => Some(cell.time.median),
        }
    }

    pub fn plain(self, number: f64) -> String {
        if self == Unit::Milliseconds { milliseconds(number) } else { whole(number) }
    }

    /// A number less another, which may not be there.
    pub fn less(self, number: Option<f64>, other: Option<f64>) -> String {
        number.zip(other).map_or(NONE.into(), |(number, other)| self.plain(number - other))
    }

    /// The cell's number; a time has its spread beside it, unless it is that
    /// of one call.
    pub fn shown(self, cell: Option<&Cell>) -> String {
        let Some((cell, number)) = cell.zip(self.number(cell)) else { return NONE.into() };
        let plain = self.plain(number);
        match cell.time.samples {
            _ if self == Unit::Instructions => plain,
            1 => format!("{plain}, one call"),
            _ => format!("{plain} ± {:.0} %", 100.0 * cell.time.spread / cell.time.median),
        }
    }
}

/// The four columns of the check.
pub const CHECKED: [Operation; 4] =
    [Operation::RustCheck, Operation::RustWhole, Operation::Check, Operation::Reading];

const CHECK_HEAD: [&str; 7] = [
    "Rust: check alone, HIR and store built before",
    "Rust: sheets decoded, HIR and store built, check",
    "ours: check from bytes, all reading included",
    "ours: reading both sheets alone",
    "ours: check less reading",
    "ours / Rust alone",
    "ours / Rust decoding",
];

/// The check's table: what names a row, the four columns, and what follows
/// from them.
pub fn checks<Of>(
    head: &[&str],
    rows: &[&Row<Of>],
    named: impl Fn(&Row<Of>) -> Vec<String>,
    unit: Unit,
) -> String {
    let line = |row: &&Row<Of>| {
        let cells = CHECKED.map(|operation| row.find(operation));
        let [alone, whole, ours, reading] = cells.map(|cell| unit.number(cell));
        let derived = [unit.less(ours, reading), over(ours, alone), over(ours, whole)];
        named(row).into_iter().chain(cells.map(|cell| unit.shown(cell))).chain(derived).collect()
    };
    table(&[head, &CHECK_HEAD].concat(), rows.iter().map(line))
}

/// An operation beside another that it is held against, if there is one:
/// time, instructions and both ratios.
pub fn side_by_side(other: Option<&Cell>, ours: Option<&Cell>, time: Unit) -> Vec<String> {
    let three = |unit: Unit| {
        let ratio = over(unit.number(ours), unit.number(other));
        [unit.shown(other), unit.shown(ours), ratio]
    };
    [three(time), three(Unit::Instructions)].concat()
}

/// An operation's name, the oracle's own, ours: for want of a published one.
pub type Beside = (&'static str, Operation, Operation);

/// The operations of each input beside the oracle's. What an input is called
/// stands under `of`.
pub fn beside_the_oracle<'a>(
    of: &str,
    inputs: impl IntoIterator<Item = (String, &'a [Cell])>,
    operations: &[Beside],
) -> String {
    let head = [
        of,
        "operation",
        "oracle, ns",
        "ours, ns",
        "ours / oracle",
        "oracle, instructions",
        "ours, instructions",
        "ours / oracle",
    ];
    let of_input = |(word, cells): (String, &[Cell])| {
        let find = |wanted| cells.iter().find(|cell| cell.operation == wanted);
        let line = |(name, oracle, ours): &Beside| {
            let first = vec![word.clone(), (*name).to_owned()];
            [first, side_by_side(find(*oracle), find(*ours), Unit::Nanoseconds)].concat()
        };
        operations.iter().map(line).collect::<Vec<_>>()
    };
    table(&head, inputs.into_iter().flat_map(of_input))
}

pub const MARGIN_HEAD: [&str; 7] = [
    "breaches",
    "check",
    "margin list",
    "margin list / check",
    "check, instructions",
    "margin list, instructions",
    "margin list / check",
];

/// A row's breaches, and the margin list beside the check.
pub fn margin<Of>(row: &Row<Of>, time: Unit) -> Vec<String> {
    let (check, margin) = (row.find(Operation::Check), row.find(Operation::Margin));
    [vec![grouped(row.items as u64)], side_by_side(check, margin, time)].concat()
}

#[cfg(test)]
mod tests {
    use super::*;
    use crate::measure::Timing;
    use crate::shape::Shape;

    const MARKS: Marks = ["<begin>\n", "<end>\n"];

    #[test]
    fn numbers_in_groups() {
        assert_eq!([0, 999, 1_000, 1_234_567].map(grouped), ["0", "999", "1,000", "1,234,567"]);
    }

    #[test]
    fn only_what_stands_between_the_marks_is_replaced() {
        let [begin, end] = MARKS;
        let document = format!("before\n{begin}old\n{end}after\n");
        let expected = format!("before\n{begin}\nnew\n{end}after\n");
        assert_eq!(replaced(&document, MARKS, "new"), Ok(expected.clone()));
        assert_eq!(replaced(&expected, MARKS, "new"), Ok(expected));
        assert!(replaced("no marks", MARKS, "new").is_err());
    }

    #[test]
    fn tables_of_markdown() {
        let written = table(&["cost", "b"], [vec!["1".into(), "2".into()]]);
        assert_eq!(written, "| cost | b |\n|---|---:|\n| 1 | 2 |\n");
    }

    #[test]
    fn cells_in_units() {
        let time = Timing { median: 2e6, spread: 1e5, samples: 3 };
        let cell = Cell { operation: Operation::Check, time, instructions: 0 };
        assert_eq!(Unit::Nanoseconds.shown(Some(&cell)), "2,000,000 ± 5 %");
        assert_eq!(Unit::Milliseconds.shown(Some(&cell)), "2.000 ± 5 %");
        assert_eq!(Unit::Instructions.shown(Some(&cell)), NONE);
        let once = Cell { time: Timing { samples: 1, ..time }, instructions: 1_500, ..cell };
        assert_eq!(Unit::Milliseconds.shown(Some(&once)), "2.000, one call");
        assert_eq!(Unit::Instructions.shown(Some(&once)), "1,500");
        assert_eq!(Unit::Milliseconds.shown(None), NONE);
        assert_eq!(Unit::Milliseconds.plain(12_345_678_900.0), "12,345.679");
        assert_eq!(Unit::Milliseconds.less(Some(2e6), Some(5e5)), "1.500");
        assert_eq!(Unit::Instructions.less(Some(2e6), None), NONE);
    }

    #[test]
    fn the_margin_list_beside_the_check() {
        let cell = |operation, median, instructions| {
            let time = Timing { median, spread: median / 10.0, samples: 3 };
            Cell { operation, time, instructions }
        };
        let cells = vec![cell(Operation::Margin, 3e6, 400), cell(Operation::Check, 2e6, 100)];
        let (bytes, tokens, shape) = ([0; 2], [0; 2], Shape::default());
        let row = Row { of: (), bytes, tokens, items: 1_023, compared: 0, shape, cells };
        let expected = ["1,023", "2.000 ± 10 %", "3.000 ± 10 %", "1.50", "100", "400", "4.00"];
        assert_eq!(margin(&row, Unit::Milliseconds), expected);
        assert_eq!(expected.len(), MARGIN_HEAD.len());
    }
}
