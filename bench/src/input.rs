//! One input of the benchmark: two sheets, what the Rust makes of them, the
//! buffers lent to the archive, and every operation that is measured.

use std::hint::black_box;
use std::time::{Duration, Instant};

use cyrs_diag::{Diagnostic, DiagnosticsSink};
use cyrs_hir::Statement;
use cyrs_schema::SchemaProvider;
use cyrs_sema::schema_aware::check_schema_aware;
use nurbellat::raw;
use oracle::compare::{Difference, judge};
use oracle::items::{ITEM_WIDTH, Item, items};
use oracle::margin::in_margin;
use oracle::sheet::{MAX_TOKENS, Sheet, read_schema, read_statement};
use oracle::store::{Store, store};
use oracle::tree::Raw;
use oracle::{answers, decode};

use crate::joins::Join;
use crate::measure::Runs;
use crate::papers::paper;
use crate::schemas::Schema;
use crate::shape::Shape;
use crate::texts::Text;
use crate::thins::Thin;
use crate::worst::Worst;
use crate::worst_schemas::REL_TYPE;

/// Every input comes from this seed.
pub const SEED: u64 = 1;

pub const TOKENS: [usize; 4] = [10, 100, 1_000, 4_000];
pub const DECLARATIONS: [usize; 3] = [5, 50, 500];

/// Which input.
#[derive(Clone, Copy, Debug, PartialEq, Eq)]
pub struct Size {
    pub tokens: usize,
    pub declarations: usize,
    pub breaches: bool,
}

impl Size {
    /// All inputs: every number of declarations with every number of tokens.
    pub fn all(breaches: bool) -> Vec<Size> {
        let of = |declarations| {
            TOKENS.into_iter().map(move |tokens| Size { tokens, declarations, breaches })
        };
        DECLARATIONS.into_iter().flat_map(of).collect()
    }

    /// What is measured on it. The store's operations depend on the schema
    /// alone, so one paper of each schema has them. A list of 512 items makes
    /// a difference where there are more tokens.
    pub fn operations(self) -> Vec<Operation> {
        use Operation::*;
        let mut all = vec![RustCheck, Check];
        if self.breaches {
            all.extend([Margin, RustWhole, Reading, Messages]);
        }
        if self.breaches && self.tokens > answers::PROGRAM_ITEMS {
            all.push(CheckShort);
        }
        if !self.breaches && self.tokens == TOKENS[0] {
            all.extend([RustDigest, Digest, RustNames, Names, RustEndpoints, Endpoints]);
        }
        all
    }
}

/// Where an input comes from.
#[derive(Clone, Copy, Debug, PartialEq, Eq)]
pub enum Source {
    Made(Size),
    Worst(Worst),
    Text(Text),
    Join(Join),
    Thin(Thin),
}

/// What is measured. `Rust..` is the published Rust, `Oracle..` the oracle's own
/// where the Rust has nothing, the others the archive.
#[derive(Clone, Copy, Debug, PartialEq, Eq)]
pub enum Operation {
    /// The check alone: HIR and store are there.
    RustCheck,
    /// Both sheets read, HIR and store built, the check.
    RustWhole,
    /// The check from bytes, with a list that has room for an item a token.
    Check,
    /// The check from bytes, with a list of 512 items.
    CheckShort,
    /// The margin list from bytes, with a list as for the check.
    Margin,
    /// Both sheets read, and nothing else.
    Reading,
    /// Every message of the paper, one call each.
    Messages,
    /// The message of the item in the middle of the list.
    Message,
    /// The message of the last item.
    LastMessage,
    /// The message of the last item, with a buffer of 16,384 bytes.
    LastMessageShort,
    /// The schema read, and nothing else.
    ReadSchema,
    RustDigest,
    Digest,
    /// Labels, relationship types and parameters in order.
    RustNames,
    Names,
    RustLabelNames,
    LabelNames,
    RustParameterNames,
    ParameterNames,
    /// The endpoints of one relationship type.
    RustEndpoints,
    Endpoints,
    /// The sheet of the row in the middle of a text.
    OracleRowStatement,
    RowStatement,
    /// All rows of a text, one by one.
    OracleRows,
    Rows,
    /// The sheets of all rows, each cut out of the text with the header.
    OracleRowSheets,
    RowSheets,
    /// Two statements joined.
    OracleJoinStatements,
    JoinStatements,
    /// The two read, and nothing else.
    OracleReadStatements,
    ReadStatements,
    /// The check from bytes, both sheets thin.
    CheckThin,
    /// Both thin sheets read, and nothing else.
    ReadingThin,
    /// A sheet converted to the thin kind.
    OracleThinStatement,
    ThinStatement,
    OracleThinSchema,
    ThinSchema,
    /// A statement that is thin already.
    OracleThinCopy,
    ThinCopy,
}

impl Operation {
    const ALL: [Operation; 39] = [
        Operation::RustCheck,
        Operation::RustWhole,
        Operation::Check,
        Operation::CheckShort,
        Operation::Margin,
        Operation::Reading,
        Operation::Messages,
        Operation::Message,
        Operation::LastMessage,
        Operation::LastMessageShort,
        Operation::ReadSchema,
        Operation::RustDigest,
        Operation::Digest,
        Operation::RustNames,
        Operation::Names,
        Operation::RustLabelNames,
        Operation::LabelNames,
        Operation::RustParameterNames,
        Operation::ParameterNames,
        Operation::RustEndpoints,
        Operation::Endpoints,
        Operation::OracleRowStatement,
        Operation::RowStatement,
        Operation::OracleRows,
        Operation::Rows,
        Operation::OracleRowSheets,
        Operation::RowSheets,
        Operation::OracleJoinStatements,
        Operation::JoinStatements,
        Operation::OracleReadStatements,
        Operation::ReadStatements,
        Operation::CheckThin,
        Operation::ReadingThin,
        Operation::OracleThinStatement,
        Operation::ThinStatement,
        Operation::OracleThinSchema,
        Operation::ThinSchema,
        Operation::OracleThinCopy,
        Operation::ThinCopy,
    ];

    /// Whether items have to be counted before it.
    pub fn writes_messages(self) -> bool {
        use Operation::*;
        matches!(self, Messages | Message | LastMessage | LastMessageShort)
    }

    /// Whether it is the Rust's.
    pub fn is_rust(self) -> bool {
        use Operation::*;
        let names = matches!(self, RustNames | RustLabelNames | RustParameterNames);
        names || matches!(self, RustCheck | RustWhole | RustDigest | RustEndpoints)
    }

    /// Whether it is of a text, not of sheets.
    pub fn is_of_texts(self) -> bool {
        use Operation::*;
        matches!(self, RowStatement | Rows | RowSheets)
            || matches!(self, OracleRowStatement | OracleRows | OracleRowSheets)
    }

    /// Whether it is of statements that are joined, not of a pair.
    pub fn is_of_joins(self) -> bool {
        use Operation::*;
        matches!(self, JoinStatements | ReadStatements)
            || matches!(self, OracleJoinStatements | OracleReadStatements)
    }

    /// Whether it is of thin sheets, or of a sheet that is converted.
    pub fn is_of_thin(self) -> bool {
        use Operation::*;
        matches!(self, CheckThin | ReadingThin | ThinStatement | ThinSchema | ThinCopy)
            || matches!(self, OracleThinStatement | OracleThinSchema | OracleThinCopy)
    }

    /// Whether it is one call of the archive over a pair, and not several.
    pub fn is_one_call_of_ours(self) -> bool {
        !self.is_rust()
            && !self.is_of_texts()
            && !self.is_of_joins()
            && !self.is_of_thin()
            && !matches!(self, Operation::Messages | Operation::Names | Operation::Reading)
    }

    pub fn word(self) -> String {
        format!("{self:?}")
    }

    pub fn of(word: &str) -> Option<Self> {
        Operation::ALL.into_iter().find(|operation| operation.word() == word)
    }
}

pub struct Input {
    pub source: Source,
    pub statement: Vec<u8>,
    pub schema: Vec<u8>,
    pub items: usize,
    /// Messages that were held against the Rust's.
    pub compared: usize,
    pub shape: Shape,
    rel_type: String,
    hir: Statement,
    store: Store,
    list: Vec<u32>,
    text: Vec<u8>,
}

/// One of the archive's three lists of names.
type NamesInOrder = fn(&[u8], &mut [u32]) -> raw::Reply;

fn accepted(statement: &[u8], schema: &[u8]) -> (Sheet, Sheet) {
    let statement = read_statement(statement).expect("an accepted statement");
    (statement, read_schema(schema).expect("an accepted schema"))
}

fn built(statement: &[u8], schema: &[u8]) -> (Statement, Store) {
    let (statement, schema) = accepted(statement, schema);
    (decode::statement(&statement), store(&schema).expect("no duplicate"))
}

/// Room for the longest message of a paper. It is not touched before it is
/// written to.
const LONGEST_MESSAGE: usize = 1 << 27;

/// All messages of a worst paper are compared where there are no more, and
/// where that lasts no longer.
const MOST_COMPARED: usize = 3_000;
const COMPARED_FOR: Duration = Duration::from_secs(5);

/// How long one call of some operations took.
pub type Once = Vec<(Operation, Duration)>;

/// Code, start and end of an item.
type Placed = [u32; 3];

fn placed(diagnostic: &Diagnostic) -> Placed {
    let span = diagnostic.span;
    [diagnostic.code as u32, span.start().into(), span.end().into()]
}

impl Input {
    pub fn new(size: Size) -> Self {
        let (declared, schema) = Schema::new(size.declarations);
        let statement = paper(&declared, SEED, size.tokens, size.breaches);
        let last = declared.rel_types.last().expect("a relationship type");
        let mut input =
            Input::of(Source::Made(size), [statement.raw(), schema.raw()], last.name.clone());
        input.count_items();
        input
    }

    /// One of the worst papers. Its items are not counted, which may take
    /// seconds.
    pub fn worst(worst: Worst) -> Self {
        Input::of(Source::Worst(worst), worst.sheets(), REL_TYPE.into())
    }

    fn of(source: Source, sheets: [Raw; 2], rel_type: String) -> Self {
        let [statement, schema] = sheets.map(|sheet| sheet.bytes());
        let (hir, store) = built(&statement, &schema);
        let endpoints = 2 * store.relationship_endpoints(&rel_type).len();
        let list = vec![0; endpoints.max(ITEM_WIDTH * MAX_TOKENS as usize)];
        let text = vec![0; LONGEST_MESSAGE];
        let shape = Shape::of(&accepted(&statement, &schema).0);
        let (items, compared) = (0, 0);
        Input {
            source,
            statement,
            schema,
            items,
            compared,
            shape,
            rel_type,
            hir,
            store,
            list,
            text,
        }
    }

    /// Counts the items, for the operations that write messages.
    pub fn count_items(&mut self) {
        self.items = self.write_list(Operation::Check).count as usize;
    }

    /// How many tokens the statement and the schema have.
    pub fn tokens(&self) -> [u32; 2] {
        let first = |sheet: &[u8]| u32::from_le_bytes(sheet[..4].try_into().expect("four bytes"));
        [first(&self.statement), first(&self.schema)]
    }

    /// Whether both sides give the same on a worst paper: both lists, the
    /// middle and the last message, and all where that does not last long; or
    /// the same of the store, on a worst schema. What differs, if not. Counts
    /// the items on the way, and answers how long the calls took that may be
    /// slow.
    pub fn agree_in_part(&mut self) -> Result<Once, String> {
        if matches!(self.source, Source::Worst(worst) if !worst.is_paper()) {
            self.store_agrees()?;
            return Ok(Vec::new());
        }
        let start = Instant::now();
        let mut sink = DiagnosticsSink::default();
        check_schema_aware(black_box(&self.hir), black_box(&self.store), &mut sink);
        let mut once = vec![(Operation::RustCheck, start.elapsed())];
        let (statement, schema) = accepted(&self.statement, &self.schema);
        once.extend(self.lists_agree(&items(&statement, &schema), &sink.list)?);
        self.items = sink.list.len();
        let messages: Vec<&str> = sink.list.iter().map(|item| item.message.as_str()).collect();
        if let Some(last) = messages.len().checked_sub(1) {
            once.extend(self.messages_agree(&messages, last)?);
        }
        Ok(once)
    }

    /// Whether the check and the margin list give what both others do. The
    /// Rust has no margin list: its own list is sorted, and equal starts stay.
    fn lists_agree(&mut self, items: &[Item], rust: &[Diagnostic]) -> Result<Once, String> {
        let rust: Vec<Placed> = rust.iter().map(placed).collect();
        let mut by_start = rust.clone();
        by_start.sort_by_key(|[_, start, _]| *start);
        let check = self.list_agrees(Operation::Check, items, &rust)?;
        let margin = self.list_agrees(Operation::Margin, &in_margin(items), &by_start)?;
        Ok(vec![(Operation::Check, check), (Operation::Margin, margin)])
    }

    /// Whether a list is the oracle's in all numbers, and the Rust's in codes
    /// and spans. Nothing of an earlier call stands in it. Answers how long
    /// the call took.
    fn list_agrees(
        &mut self,
        operation: Operation,
        items: &[Item],
        rust: &[Placed],
    ) -> Result<Duration, String> {
        self.list.fill(0);
        let start = Instant::now();
        let reply = self.write_list(operation);
        let taken = start.elapsed();
        let written = self.list.chunks(ITEM_WIDTH).take(reply.count as usize);
        let same = reply.number == 0
            && written.clone().eq(items.iter().map(Item::numbers))
            && written.map(|item| [item[0], item[1], item[2]]).eq(rust.iter().copied());
        if same { Ok(taken) } else { Err(format!("{:?}: {operation:?}: {reply:?}", self.source)) }
    }

    /// The check or the margin list, in the list of an item a token.
    fn write_list(&mut self, operation: Operation) -> raw::Reply {
        let (statement, schema) = (black_box(&self.statement[..]), black_box(&self.schema[..]));
        match operation {
            Operation::Margin => raw::margin_list(statement, schema, &mut self.list),
            _ => raw::check_schema_aware(statement, schema, &mut self.list),
        }
    }

    /// The middle message and the last, and all where that does not last long.
    fn messages_agree(&mut self, theirs: &[&str], last: usize) -> Result<Once, String> {
        let mut once = Vec::new();
        for (operation, k) in
            [(Operation::Message, theirs.len() / 2), (Operation::LastMessage, last)]
        {
            let start = Instant::now();
            self.message_agrees(k, theirs[k])?;
            once.push((operation, start.elapsed()));
        }
        if theirs[last].len() > answers::PROGRAM_TEXT {
            once.push((Operation::LastMessageShort, self.refused_16(last)?));
        }
        self.compared = theirs.len().min(2);
        if theirs.len() <= MOST_COMPARED && once[0].1 * theirs.len() as u32 <= COMPARED_FOR {
            for (k, message) in theirs.iter().enumerate() {
                self.message_agrees(k, message)?;
            }
            self.compared = theirs.len();
        }
        Ok(once)
    }

    /// Asks for a message that is longer than the program's buffer.
    fn refused_16(&mut self, k: usize) -> Result<Duration, String> {
        let start = Instant::now();
        let text = &mut self.text[..answers::PROGRAM_TEXT];
        let reply = raw::message(&self.statement, &self.schema, k as u32, text);
        match reply.number {
            16 => Ok(start.elapsed()),
            _ => Err(format!("{:?}: message {k} is not refused: {reply:?}", self.source)),
        }
    }

    fn message_agrees(&mut self, k: usize, theirs: &str) -> Result<(), String> {
        let reply = raw::message(&self.statement, &self.schema, k as u32, &mut self.text);
        if self.text[..reply.count as usize] != *theirs.as_bytes() {
            let shown: String = theirs.chars().take(200).collect();
            return Err(format!("{:?}: message {k} differs: {shown:?}", self.source));
        }
        Ok(())
    }

    /// Whether both sides give the same list, margin list, messages, digest,
    /// names and endpoints; what differs, if not. The oracle holds the Rust
    /// against document 01 on the way.
    pub fn agree(&mut self) -> Result<(), String> {
        let judged = judge(&self.statement, &self.schema).map_err(|Difference(what)| what)?;
        let items = judged.map_err(|refusal| format!("{refusal:?}"))?;
        let mut sink = DiagnosticsSink::default();
        check_schema_aware(&self.hir, &self.store, &mut sink);
        self.lists_agree(&items, &sink.list)?;
        for (k, diagnostic) in sink.list.iter().enumerate() {
            self.message_agrees(k, &diagnostic.message)?;
        }
        self.compared = sink.list.len();
        self.store_agrees()
    }

    fn store_agrees(&mut self) -> Result<(), String> {
        let (_, sheet) = accepted(&self.statement, &self.schema);
        let name = |number: &u32| sheet.names[*number as usize].as_str();
        let digest = raw::schema_digest(&self.schema).bytes;
        if digest != self.store.schema_digest() {
            return Err(format!("{:?}: the digests differ", self.source));
        }
        let inner = &self.store.inner;
        let parameters = inner.parameters().map(|p| p.name.clone()).collect();
        let sorts = [
            (raw::label_names as NamesInOrder, inner.label_names()),
            (raw::rel_type_names, inner.rel_type_names()),
            (raw::parameter_names, parameters),
        ];
        for (in_order, theirs) in sorts {
            let count = in_order(&self.schema, &mut self.list).count as usize;
            if !self.list[..count].iter().map(name).eq(theirs.iter().map(|text| text.as_str())) {
                return Err(format!("{:?}: the names differ: {theirs:?}", self.source));
            }
        }
        let rel_type = self.rel_type.as_bytes();
        let count = raw::relationship_endpoints(&self.schema, rel_type, &mut self.list).count;
        let pairs = self.store.relationship_endpoints(&self.rel_type);
        let texts = pairs.iter().flat_map(|pair| [pair.from.as_str(), pair.to.as_str()]);
        if !self.list[..2 * count as usize].iter().map(name).eq(texts) {
            return Err(format!("{:?}: the endpoints differ", self.source));
        }
        Ok(())
    }

    fn run_rust_check(&mut self, operation: Operation) {
        let mut sink = DiagnosticsSink::default();
        if operation == Operation::RustCheck {
            check_schema_aware(black_box(&self.hir), black_box(&self.store), &mut sink);
        } else {
            let (hir, store) = built(black_box(&self.statement), black_box(&self.schema));
            check_schema_aware(&hir, &store, &mut sink);
        }
        black_box(&sink.list);
    }

    fn run_rust_store(&mut self, operation: Operation) {
        let store = &black_box(&self.store).inner;
        let labels = || black_box(store.label_names());
        let parameters =
            || black_box(store.parameters().map(|p| p.name.clone()).collect::<Vec<_>>());
        match operation {
            Operation::RustDigest => {
                black_box(store.schema_digest());
            }
            Operation::RustLabelNames => {
                labels();
            }
            Operation::RustParameterNames => {
                parameters();
            }
            Operation::RustNames => {
                black_box((labels(), store.rel_type_names(), parameters()));
            }
            _ => {
                black_box(store.relationship_endpoints(black_box(&self.rel_type)));
            }
        }
    }

    fn run_check(&mut self, operation: Operation) {
        let (statement, schema) = (black_box(&self.statement[..]), black_box(&self.schema[..]));
        match operation {
            Operation::CheckShort => {
                let list = &mut self.list[..answers::PROGRAM_ITEMS * ITEM_WIDTH];
                black_box(raw::check_schema_aware(statement, schema, list));
            }
            Operation::Reading => {
                black_box((raw::read_statement(statement), raw::read_schema(schema)));
            }
            _ => {
                black_box(self.write_list(operation));
            }
        }
    }

    fn run_messages(&mut self, operation: Operation) {
        let (statement, schema) = (black_box(&self.statement[..]), black_box(&self.schema[..]));
        let items = self.items as u32;
        let (asked, bytes) = match operation {
            Operation::Messages => (0..items, LONGEST_MESSAGE),
            Operation::Message => (items / 2..items / 2 + 1, LONGEST_MESSAGE),
            Operation::LastMessage => (items - 1..items, LONGEST_MESSAGE),
            _ => (items - 1..items, answers::PROGRAM_TEXT),
        };
        for k in asked {
            black_box(raw::message(statement, schema, k, &mut self.text[..bytes]));
        }
    }

    fn run_store(&mut self, operation: Operation) {
        let (schema, list) = (black_box(&self.schema[..]), &mut self.list);
        match operation {
            Operation::ReadSchema => {
                black_box(raw::read_schema(schema));
            }
            Operation::Digest => {
                black_box(raw::schema_digest(schema));
            }
            Operation::LabelNames => {
                black_box(raw::label_names(schema, list));
            }
            Operation::ParameterNames => {
                black_box(raw::parameter_names(schema, list));
            }
            Operation::Names => {
                black_box(raw::label_names(schema, list));
                black_box(raw::rel_type_names(schema, list));
                black_box(raw::parameter_names(schema, list));
            }
            _ => {
                let rel_type = black_box(self.rel_type.as_bytes());
                black_box(raw::relationship_endpoints(schema, rel_type, list));
            }
        }
    }
}

impl Runs for Input {
    fn run(&mut self, operation: Operation) {
        use Operation::*;
        match operation {
            RustCheck | RustWhole => self.run_rust_check(operation),
            _ if operation.is_rust() => self.run_rust_store(operation),
            Check | CheckShort | Margin | Reading => self.run_check(operation),
            _ if operation.writes_messages() => self.run_messages(operation),
            _ if operation.is_of_texts() => unreachable!("an operation on texts"),
            _ if operation.is_of_joins() => unreachable!("an operation on joins"),
            _ if operation.is_of_thin() => unreachable!("an operation on thin sheets"),
            _ => self.run_store(operation),
        }
    }
}

#[cfg(test)]
mod tests {
    use super::*;

    #[test]
    fn both_sides_agree_on_every_input() {
        for size in Size::all(true).into_iter().chain(Size::all(false)) {
            assert_eq!(Input::new(size).agree(), Ok(()));
        }
    }

    #[test]
    fn both_sides_agree_on_worst_papers() {
        use Worst::*;
        let of_margins = [InTurn, Scattered, ScatteredFew, MostTwice, MostItems];
        for worst in [Maps, Breaches, Nested].into_iter().chain(of_margins) {
            let mut input = Input::worst(worst);
            assert!(input.agree_in_part().is_ok());
            assert!(input.items > 0);
        }
    }

    #[test]
    fn a_margin_list_in_another_order_is_noticed() {
        let mut input = Input::worst(Worst::InTurn);
        let (statement, schema) = accepted(&input.statement, &input.schema);
        let check = items(&statement, &schema);
        let margin = in_margin(&check);
        let spans = |items: &[Item]| -> Vec<Placed> {
            items.iter().map(|item| [item.code, item.start, item.end]).collect()
        };
        let mut agrees = |items: &[Item], rust: &[Item]| {
            input.list_agrees(Operation::Margin, items, &spans(rust)).is_ok()
        };
        assert!(agrees(&margin, &margin));
        assert!(!agrees(&check, &margin));
        assert!(!agrees(&margin, &check));
        assert!(!agrees(&margin[1..], &margin));
    }

    #[test]
    fn both_sides_agree_on_worst_schemas() {
        for worst in Worst::SCHEMAS {
            assert_eq!(Input::worst(worst).agree_in_part(), Ok(Vec::new()));
        }
    }

    #[test]
    fn the_longest_message_fits_and_the_short_buffer_is_refused() {
        let input = Input::worst(Worst::Long);
        let Input { statement, schema, mut text, .. } = input;
        let reply = raw::message(&statement, &schema, 4_086, &mut text);
        assert!(reply.number == 0 && reply.count > 100_000_000, "{reply:?}");
        let short = &mut text[..answers::PROGRAM_TEXT];
        assert_eq!(raw::message(&statement, &schema, 4_086, short).number, 16);
    }

    #[test]
    fn a_list_one_item_short_is_noticed() {
        let size = Size { tokens: 100, declarations: 5, breaches: true };
        let mut input = Input::new(size);
        assert!(input.items > 0);
        input.list.truncate(ITEM_WIDTH * input.items - 1);
        assert!(input.agree().is_err());
    }

    #[test]
    fn words_name_operations() {
        for operation in Operation::ALL {
            assert_eq!(Operation::of(&operation.word()), Some(operation));
        }
        assert_eq!(Operation::of("Nothing"), None);
    }

    #[test]
    fn the_rust_s_operations_are_called_so() {
        for operation in Operation::ALL {
            assert_eq!(operation.is_rust(), operation.word().starts_with("Rust"));
        }
    }
}
