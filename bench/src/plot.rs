//! The plot `speed.svg`: time of a call against the tokens of the paper, both
//! logarithmic, one panel for each number of declarations.

use crate::input::{DECLARATIONS, Operation, Size, TOKENS};
use crate::measure::Row as RowOf;
use crate::table::grouped;

type Row = RowOf<Size>;

const WIDTH: f64 = 1_080.0;
const HEIGHT: f64 = 520.0;
const LEFT: f64 = 92.0;
const TOP: f64 = 118.0;
const PANEL: f64 = 300.0;
const GAP: f64 = 24.0;
const TALL: f64 = 330.0;

/// The tokens at the panel's edges, as powers of ten.
const TOKEN_RANGE: [f64; 2] = [0.85, 3.75];

/// The powers of ten of a nanosecond.
const TIME_NAMES: [&str; 10] =
    ["1 ns", "10 ns", "100 ns", "1 µs", "10 µs", "100 µs", "1 ms", "10 ms", "100 ms", "1 s"];

struct Series {
    operation: Operation,
    name: &'static str,
    colour: &'static str,
    dash: &'static str,
}

const SERIES: [Series; 4] = [
    Series {
        operation: Operation::RustCheck,
        name: "Rust: check alone (HIR and store built before)",
        colour: "#0072b2",
        dash: "none",
    },
    Series {
        operation: Operation::RustWhole,
        name: "Rust: sheets decoded, HIR and store built, check",
        colour: "#0072b2",
        dash: "6 4",
    },
    Series {
        operation: Operation::Check,
        name: "ours: check from bytes (all reading included)",
        colour: "#d55e00",
        dash: "none",
    },
    Series {
        operation: Operation::Reading,
        name: "ours: reading both sheets alone",
        colour: "#d55e00",
        dash: "2 4",
    },
];

/// Where a value stands between two edges, on a logarithmic axis.
fn along(value: f64, range: [f64; 2], from: f64, to: f64) -> f64 {
    from + (value.log10() - range[0]) / (range[1] - range[0]) * (to - from)
}

/// The powers of ten between which all times lie.
fn time_range(rows: &[Row]) -> [f64; 2] {
    let of_row = |row: &Row| SERIES.each_ref().map(|s| row.cell(s.operation).time.median.log10());
    let powers: Vec<f64> = rows.iter().filter(|row| row.of.breaches).flat_map(of_row).collect();
    let least = powers.iter().copied().fold(f64::INFINITY, f64::min);
    let most = powers.iter().copied().fold(0.0, f64::max);
    [least.floor(), most.ceil()]
}

fn height_of(ns: f64, range: [f64; 2]) -> f64 {
    along(ns, range, TOP + TALL, TOP)
}

fn panel_left(panel: usize) -> f64 {
    LEFT + panel as f64 * (PANEL + GAP)
}

fn place_of(panel: usize, tokens: usize) -> f64 {
    let left = panel_left(panel);
    along(tokens as f64, TOKEN_RANGE, left, left + PANEL)
}

/// A line of text; `anchor` says which end stands at x.
fn text(x: f64, y: f64, anchor: &str, words: &str) -> String {
    format!("<text x=\"{x:.1}\" y=\"{y:.1}\" text-anchor=\"{anchor}\">{words}</text>\n")
}

fn line(from: (f64, f64), to: (f64, f64), style: &str) -> String {
    let ((x1, y1), (x2, y2)) = (from, to);
    format!("<line x1=\"{x1:.1}\" y1=\"{y1:.1}\" x2=\"{x2:.1}\" y2=\"{y2:.1}\" {style}/>\n")
}

/// The plot of the papers with breaches.
pub fn plot(rows: &[Row]) -> String {
    let mut out = format!(
        "<svg xmlns=\"http://www.w3.org/2000/svg\" width=\"{WIDTH}\" height=\"{HEIGHT}\" \
         viewBox=\"0 0 {WIDTH} {HEIGHT}\" font-family=\"sans-serif\" font-size=\"14\" \
         fill=\"#222\">\n<rect width=\"{WIDTH}\" height=\"{HEIGHT}\" fill=\"#fff\"/>\n"
    );
    out += &legend();
    let range = time_range(rows);
    for (panel, declarations) in DECLARATIONS.into_iter().enumerate() {
        out += &axes(panel, declarations, range);
        for series in &SERIES {
            out += &curve(&points(rows, panel, range, series), series);
        }
    }
    let middle = TOP + TALL / 2.0;
    out += &format!("<g transform=\"rotate(-90 22 {middle})\">");
    out += &text(22.0, middle, "middle", "time of one call, median");
    out + "</g>\n</svg>\n"
}

/// Two columns of two.
fn legend() -> String {
    let mut out = String::new();
    for (i, series) in SERIES.iter().enumerate() {
        let x = LEFT + (i / 2) as f64 * 470.0;
        let y = 26.0 + (i % 2) as f64 * 26.0;
        let ends = [(x, y), (x + 44.0, y)];
        out += &line(ends[0], ends[1], &stroke(series));
        out += &dot(x + 22.0, y, series);
        out += &text(x + 54.0, y + 5.0, "start", series.name);
    }
    out
}

fn stroke(series: &Series) -> String {
    let Series { colour, dash, .. } = series;
    format!("stroke=\"{colour}\" stroke-width=\"2\" stroke-dasharray=\"{dash}\" fill=\"none\"")
}

/// Full where the line is, hollow where it is dashed.
fn dot(x: f64, y: f64, series: &Series) -> String {
    let Series { colour, dash, .. } = series;
    let fill = if *dash == "none" { colour } else { "#fff" };
    format!(
        "<circle cx=\"{x:.1}\" cy=\"{y:.1}\" r=\"3.5\" fill=\"{fill}\" stroke=\"{colour}\" \
         stroke-width=\"1.5\"/>\n"
    )
}

/// The panel's frame, grid, numbers and title.
fn axes(panel: usize, declarations: usize, range: [f64; 2]) -> String {
    let (left, right, foot) = (panel_left(panel), panel_left(panel) + PANEL, TOP + TALL);
    let mut out = String::new();
    let shown = |(power, _): &(usize, &&str)| (range[0]..=range[1]).contains(&(*power as f64));
    for (power, name) in TIME_NAMES.iter().enumerate().filter(shown) {
        let y = height_of(10f64.powi(power as i32), range);
        out += &line((left, y), (right, y), "stroke=\"#ddd\"");
        if panel == 0 {
            out += &text(left - 8.0, y + 5.0, "end", name);
        }
    }
    for tokens in TOKENS {
        let x = place_of(panel, tokens);
        out += &line((x, TOP), (x, foot), "stroke=\"#ddd\"");
        out += &text(x, foot + 20.0, "middle", &grouped(tokens as u64));
    }
    out += &format!(
        "<rect x=\"{left}\" y=\"{TOP}\" width=\"{PANEL}\" height=\"{TALL}\" fill=\"none\" \
         stroke=\"#888\"/>\n"
    );
    let middle = (left + right) / 2.0;
    out += &text(middle, TOP - 12.0, "middle", &format!("{declarations} declarations"));
    out + &text(middle, foot + 44.0, "middle", "tokens of the paper, which has breaches")
}

fn points(rows: &[Row], panel: usize, range: [f64; 2], series: &Series) -> Vec<(f64, f64)> {
    let declarations = DECLARATIONS[panel];
    let measured = rows.iter().filter(|row| row.of.breaches && row.of.declarations == declarations);
    let point = |row: &Row| {
        let ns = row.cell(series.operation).time.median;
        (place_of(panel, row.of.tokens), height_of(ns, range))
    };
    measured.map(point).collect()
}

fn curve(points: &[(f64, f64)], series: &Series) -> String {
    let path: Vec<String> = points.iter().map(|(x, y)| format!("{x:.1},{y:.1}")).collect();
    let mut out = format!("<polyline points=\"{}\" {}/>\n", path.join(" "), stroke(series));
    for (x, y) in points {
        out += &dot(*x, *y, series);
    }
    out
}

#[cfg(test)]
mod tests {
    use super::*;

    #[test]
    fn axes_are_logarithmic() {
        assert_eq!(along(10.0, [1.0, 3.0], 0.0, 100.0), 0.0);
        assert_eq!(along(100.0, [1.0, 3.0], 0.0, 100.0), 50.0);
        assert_eq!(along(1_000.0, [1.0, 3.0], 100.0, 0.0), 0.0);
    }
}
