//! Times and instruction counts of every operation on every input.

use std::time::{Duration, Instant};

use crate::count::{Job, count};
use crate::input::{Input, Once, Operation, Size, Source};
use crate::join_report::OF_JOINS;
use crate::joins::{Join, JoinInput};
use crate::shape::Shape;
use crate::statistics::{median, spread};
use crate::table::Beside;
use crate::text_report::OF_TEXTS;
use crate::texts::{Text, TextInput};
use crate::thin_report::{OF_BOTH_KINDS, OF_THIN};
use crate::thins::{Thin, ThinInput};
use crate::worst::Worst;

/// A sample lasts at least this long; it is a batch of calls.
const SAMPLE: Duration = Duration::from_millis(20);

/// A run under callgrind has calls for about this long, as timed outside.
const COUNTED_NS: f64 = 400_000.0;

/// Of the worst papers: the instructions of a call that lasts this long are
/// not counted.
const COUNTED: Duration = Duration::from_millis(20);

/// A call that lasts this long is sampled a few times.
const SLOW: Duration = Duration::from_millis(100);
const SLOW_SAMPLES: usize = 3;

/// A call that lasts this long is made once.
const SLOWEST: Duration = Duration::from_secs(1);

/// All messages of a worst paper are written where that lasts less, as one of
/// them times their number says.
const ALL_MESSAGES: Duration = Duration::from_secs(10);

/// What operations are measured on.
pub trait Runs {
    /// One call of an operation; for the names one of each sort, for the
    /// messages one of each item, for the rows one of each row.
    fn run(&mut self, operation: Operation);
}

/// Nanoseconds of one call: the samples' median, and half of what lies
/// between their quartiles.
#[derive(Clone, Copy, Debug)]
pub struct Timing {
    pub median: f64,
    pub spread: f64,
    pub samples: usize,
}

impl Timing {
    fn of(times: &[f64]) -> Self {
        Timing { median: median(times), spread: spread(times), samples: times.len() }
    }
}

/// An operation on an input.
#[derive(Clone, Copy, Debug)]
pub struct Cell {
    pub operation: Operation,
    pub time: Timing,
    /// 0 where they were not counted.
    pub instructions: u64,
}

impl Cell {
    fn of(operation: Operation, times: &[f64]) -> Self {
        Cell { operation, time: Timing::of(times), instructions: 0 }
    }
}

/// All that was measured on one input: a made one, or a worst one.
#[derive(Clone, Debug)]
pub struct Row<Of> {
    pub of: Of,
    /// Of the statement and of the schema.
    pub bytes: [usize; 2],
    pub tokens: [u32; 2],
    pub items: usize,
    /// Messages that were held against the Rust's.
    pub compared: usize,
    pub shape: Shape,
    pub cells: Vec<Cell>,
}

impl<Of> Row<Of> {
    fn new(of: Of, input: &Input, cells: Vec<Cell>) -> Self {
        let bytes = [input.statement.len(), input.schema.len()];
        let Input { items, compared, shape, .. } = *input;
        Row { of, bytes, tokens: input.tokens(), items, compared, shape, cells }
    }

    /// The cell of an operation, if it was measured.
    pub fn find(&self, operation: Operation) -> Option<&Cell> {
        self.cells.iter().find(|cell| cell.operation == operation)
    }

    pub fn cell(&self, operation: Operation) -> &Cell {
        self.find(operation).expect("an operation that was measured on this input")
    }
}

/// Measures all but the worst papers. Stops before the first measurement
/// where the two sides differ on an input.
pub fn measure(samples: usize) -> Result<Vec<Row<Size>>, String> {
    let sizes: Vec<Size> = Size::all(true).into_iter().chain(Size::all(false)).collect();
    for size in &sizes {
        Input::new(*size).agree()?;
    }
    let mut rows: Vec<Row<Size>> = sizes.into_iter().map(|size| timed(size, samples)).collect();
    let cells = rows.iter_mut().flat_map(|row| {
        let source = Source::Made(row.of);
        row.cells.iter_mut().map(move |cell| (source, cell))
    });
    counted(cells.collect())?;
    Ok(rows)
}

/// The times of one input.
fn timed(size: Size, samples: usize) -> Row<Size> {
    let mut input = Input::new(size);
    let wanted: Vec<(Operation, usize)> =
        size.operations().into_iter().map(|operation| (operation, samples)).collect();
    let cells = in_turns(&mut input, &wanted);
    Row::new(size, &input, cells)
}

/// So many samples of each operation. They take turns, sample by sample, so
/// that a disturbance does not meet one of them alone.
fn in_turns(input: &mut impl Runs, wanted: &[(Operation, usize)]) -> Vec<Cell> {
    let batches: Vec<u32> = wanted.iter().map(|(op, _)| batch(input, *op)).collect();
    let mut times = vec![Vec::new(); wanted.len()];
    for turn in 0..wanted.iter().map(|(_, samples)| *samples).max().unwrap_or(0) {
        for (i, (operation, samples)) in wanted.iter().enumerate() {
            if turn < *samples {
                let taken = run(input, *operation, batches[i]);
                times[i].push(taken.as_nanos() as f64 / f64::from(batches[i]));
            }
        }
    }
    wanted.iter().zip(&times).map(|((operation, _), times)| Cell::of(*operation, times)).collect()
}

/// How many calls last a sample: doubled until they do, which warms up too.
fn batch(input: &mut impl Runs, operation: Operation) -> u32 {
    let mut calls = 1;
    while run(input, operation, calls) < SAMPLE {
        calls *= 2;
    }
    calls
}

fn run(input: &mut impl Runs, operation: Operation, calls: u32) -> Duration {
    let start = Instant::now();
    for _ in 0..calls {
        input.run(operation);
    }
    start.elapsed()
}

/// All that was measured on one text.
#[derive(Clone, Debug)]
pub struct TextRow {
    pub of: Text,
    pub bytes: usize,
    /// Behind the header.
    pub rows: usize,
    pub cells: Vec<Cell>,
}

/// Measures comma-separated texts. Stops before the first measurement where
/// the two sides differ on one.
pub fn measure_texts(samples: usize) -> Result<Vec<TextRow>, String> {
    for text in Text::ALL {
        TextInput::new(text).agree()?;
    }
    let mut rows: Vec<TextRow> =
        Text::ALL.into_iter().map(|text| timed_text(text, samples)).collect();
    let cells = rows.iter_mut().flat_map(|row| {
        let source = Source::Text(row.of);
        row.cells.iter_mut().map(move |cell| (source, cell))
    });
    counted(cells.collect())?;
    Ok(rows)
}

/// The times of one text.
fn timed_text(of: Text, samples: usize) -> TextRow {
    let mut input = TextInput::new(of);
    let cells = beside(&mut input, &OF_TEXTS, samples);
    TextRow { of, bytes: input.text.len(), rows: input.rows.len() - 1, cells }
}

/// So many samples of each operation and of the oracle's beside it.
fn beside(input: &mut impl Runs, operations: &[Beside], samples: usize) -> Vec<Cell> {
    let both = operations.iter().flat_map(|(_, oracle, ours)| [*oracle, *ours]);
    let wanted: Vec<(Operation, usize)> = both.map(|operation| (operation, samples)).collect();
    in_turns(input, &wanted)
}

/// All that was measured on two statements that are joined.
#[derive(Clone, Debug)]
pub struct JoinRow {
    pub of: Join,
    /// Of the first and of the second.
    pub bytes: [usize; 2],
    /// Tokens, names and bytes of text of the joined sheet.
    pub sizes: [u32; 3],
    pub cells: Vec<Cell>,
}

/// Measures statements that are joined. Stops before the first measurement
/// where the two sides differ on some.
pub fn measure_joins(samples: usize) -> Result<Vec<JoinRow>, String> {
    for join in Join::ALL {
        JoinInput::new(join).agree()?;
    }
    let mut rows: Vec<JoinRow> =
        Join::ALL.into_iter().map(|join| timed_join(join, samples)).collect();
    let cells = rows.iter_mut().flat_map(|row| {
        let source = Source::Join(row.of);
        row.cells.iter_mut().map(move |cell| (source, cell))
    });
    counted(cells.collect())?;
    Ok(rows)
}

/// The times of two statements.
fn timed_join(of: Join, samples: usize) -> JoinRow {
    let mut input = JoinInput::new(of);
    let cells = beside(&mut input, &OF_JOINS, samples);
    let bytes = [input.first.len(), input.second.len()];
    JoinRow { of, bytes, sizes: input.sizes(), cells }
}

/// All that was measured on a pair in both kinds of sheets.
#[derive(Clone, Debug)]
pub struct ThinRow {
    pub of: Thin,
    /// Of statement and schema, in the first kind and in the thin one.
    pub bytes: [[usize; 2]; 2],
    pub cells: Vec<Cell>,
}

/// Measures pairs in both kinds of sheets. Stops before the first measurement
/// where the kinds differ on one.
pub fn measure_thins(samples: usize) -> Result<Vec<ThinRow>, String> {
    for thin in Thin::ALL {
        ThinInput::new(thin).agree()?;
    }
    let mut rows: Vec<ThinRow> =
        Thin::ALL.into_iter().map(|thin| timed_thin(thin, samples)).collect();
    let cells = rows.iter_mut().flat_map(|row| {
        let source = Source::Thin(row.of);
        row.cells.iter_mut().map(move |cell| (source, cell))
    });
    counted(cells.collect())?;
    Ok(rows)
}

/// The times of a pair in both kinds.
fn timed_thin(of: Thin, samples: usize) -> ThinRow {
    let mut input = ThinInput::new(of);
    let cells = beside(&mut input, &[&OF_BOTH_KINDS[..], &OF_THIN].concat(), samples);
    let bytes = [&input.first, &input.thin].map(|sheets| sheets.each_ref().map(Vec::len));
    ThinRow { of, bytes, cells }
}

/// Measures worst papers and schemas. Stops where the two sides differ on one.
pub fn measure_worst(chosen: &[Worst], samples: usize) -> Result<Vec<Row<Worst>>, String> {
    let mut rows = Vec::new();
    for worst in chosen {
        let mut input = Input::worst(*worst);
        let known = input.agree_in_part()?;
        rows.push(timed_worst(*worst, input, known, samples));
    }
    let cells = rows.iter_mut().flat_map(|row| {
        let source = Source::Worst(row.of);
        row.cells.iter_mut().map(move |cell| (source, cell))
    });
    let short = |cell: &Cell| {
        !cell.operation.writes_messages() && cell.time.median < COUNTED.as_nanos() as f64
    };
    counted(cells.filter(|(_, cell)| short(cell)).collect())?;
    Ok(rows)
}

/// The times of a worst paper or schema. What is not known of one call is
/// measured so. The slowest operations have that one call, the others samples
/// as anywhere, or few where a call is slow.
fn timed_worst(worst: Worst, mut input: Input, known: Once, samples: usize) -> Row<Worst> {
    let mut once = known;
    for operation in more_operations(worst, &once, input.items) {
        once.push((operation, run(&mut input, operation, 1)));
    }
    let (slowest, others): (Once, Once) = once.into_iter().partition(|(_, time)| *time >= SLOWEST);
    let few = SLOW_SAMPLES.min(samples);
    let wanted: Vec<(Operation, usize)> =
        others.iter().map(|(op, time)| (*op, if *time < SLOW { samples } else { few })).collect();
    let slowest = slowest.iter().map(|(op, time)| Cell::of(*op, &[time.as_nanos() as f64]));
    let cells = slowest.chain(in_turns(&mut input, &wanted)).collect();
    Row::new(worst, &input, cells)
}

/// What is measured beside what is known. With decoding the Rust is measured
/// where its check is not among the slowest, and all messages are written
/// where that does not last too long.
fn more_operations(worst: Worst, known: &Once, items: usize) -> Vec<Operation> {
    if !worst.is_paper() {
        let both =
            |(_, rust, ours): (_, Option<Operation>, Operation)| rust.into_iter().chain([ours]);
        return worst.store().into_iter().flat_map(both).collect();
    }
    let below = |operation: Operation, factor: usize, most: Duration| {
        known.iter().any(|(op, time)| *op == operation && *time * (factor as u32) < most)
    };
    let mut more = vec![Operation::Reading];
    if below(Operation::RustCheck, 1, SLOWEST) {
        more.push(Operation::RustWhole);
    }
    if below(Operation::Message, items, ALL_MESSAGES) {
        more.push(Operation::Messages);
    }
    more
}

/// Adds the instructions to cells.
fn counted(cells: Vec<(Source, &mut Cell)>) -> Result<(), String> {
    let job = |(source, cell): &(Source, &mut Cell)| {
        let times = (COUNTED_NS / cell.time.median).clamp(1.0, 200.0) as u64;
        Job { source: *source, operation: cell.operation, times }
    };
    let jobs: Vec<Job> = cells.iter().map(job).collect();
    for ((_, cell), instructions) in cells.into_iter().zip(count(&jobs)?) {
        cell.instructions = instructions;
    }
    Ok(())
}
