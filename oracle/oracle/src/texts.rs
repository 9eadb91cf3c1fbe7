//! Comma-separated texts by seed, with what the row writer must answer where
//! that is known from the way they were made.

use std::ops::Range;

use crate::build;
use crate::rng::Rng;
use crate::rows::{BOOL, FLOAT, INT, NULL, STRING, sheet_of};
use crate::sheet::{MAX_NAMES, MAX_TEXT, Refusal, SheetKind};
use crate::tree::Tree;

/// How a text was made.
#[derive(Clone, Copy, Debug, PartialEq, Eq, PartialOrd, Ord)]
pub enum Way {
    /// From a table, by the grammar.
    Kept,
    /// With one field that no text of the grammar has.
    Broken,
    /// With a quote that is not closed.
    Unclosed,
    /// With a byte in place of another, without one, with one more, cut.
    Changed,
    Removed,
    Inserted,
    Cut,
    /// Bytes at random.
    Noise,
}

pub const WAYS: [Way; 8] = [
    Way::Kept,
    Way::Broken,
    Way::Unclosed,
    Way::Changed,
    Way::Removed,
    Way::Inserted,
    Way::Cut,
    Way::Noise,
];

/// A text, what is asked of it, a schema to check the row against, and the
/// answer for a buffer that is long enough, where it is known.
#[derive(Clone, Debug)]
pub struct TextCase {
    pub text: Vec<u8>,
    pub label: Vec<u8>,
    pub row: u32,
    pub schema: Vec<u8>,
    pub way: Way,
    pub expected: Option<Result<Vec<u8>, Refusal>>,
}

/// A field as it is written, what it holds, and the kind that it has as a
/// cell.
#[derive(Clone, Debug, PartialEq, Eq)]
pub struct Written {
    pub bytes: Vec<u8>,
    pub content: Vec<u8>,
    pub kind: u8,
}

impl Written {
    /// As it is, without quotes.
    pub fn plain(content: &[u8], kind: u8) -> Self {
        Written { bytes: content.to_vec(), content: content.to_vec(), kind }
    }

    /// In quotes, its own ones doubled.
    pub fn quoted(content: &[u8]) -> Self {
        let mut bytes = vec![b'"'];
        for byte in content {
            bytes.extend(std::iter::repeat_n(*byte, 1 + usize::from(*byte == b'"')));
        }
        bytes.push(b'"');
        Written { bytes, content: content.to_vec(), kind: STRING }
    }

    /// Without quotes where the grammar allows it, and then by chance.
    fn either(content: &[u8], rng: &mut Rng) -> Self {
        let special = |byte: &u8| matches!(byte, b'"' | b',' | b'\r' | b'\n');
        if content.iter().any(special) || rng.chance(30) {
            return Written::quoted(content);
        }
        Written::plain(content, STRING)
    }
}

/// A text while it is made.
#[derive(Clone, Debug)]
pub struct Table {
    pub header: Vec<Written>,
    pub rows: Vec<Vec<Written>>,
    /// Whether a line end follows the last row.
    pub ended: bool,
}

const LINE_END: &[u8] = b"\r\n";

fn line(fields: &[Written]) -> Vec<u8> {
    let fields: Vec<&[u8]> = fields.iter().map(|field| &field.bytes[..]).collect();
    fields.join(&b","[..])
}

impl Table {
    pub fn text(&self) -> Vec<u8> {
        let lines: Vec<Vec<u8>> =
            [&self.header].into_iter().chain(&self.rows).map(|fields| line(fields)).collect();
        let mut text = lines.join(LINE_END);
        // Without it an empty last line would be no row.
        if self.ended || lines.last().is_some_and(|last| last.is_empty()) {
            text.extend(LINE_END);
        }
        text
    }

    /// The bytes of a row.
    fn range(&self, row: usize) -> Range<usize> {
        let before = [&self.header].into_iter().chain(&self.rows[..row]);
        let start = before.map(|fields| line(fields).len() + LINE_END.len()).sum();
        start..start + line(&self.rows[row]).len()
    }

    /// What the row writer must answer.
    pub fn answer(&self, label: &[u8], row: u32) -> Result<Vec<u8>, Refusal> {
        let asked = row as usize;
        let cells = self.rows.get(asked).filter(|cells| cells.len() == self.header.len());
        let cells = cells.ok_or(Refusal::neither(18))?;
        let mut names = vec![label.to_vec()];
        names.extend(self.header.iter().map(|field| field.content.clone()));
        if let Some(place) = names.iter().position(|name| String::from_utf8(name.clone()).is_err())
        {
            return Err(Refusal { number: 5, sheet: 1, place: place as u32 });
        }
        if names.len() > MAX_NAMES as usize || names.concat().len() > MAX_TEXT as usize {
            return Err(Refusal::neither(19));
        }
        let Range { start, end } = self.range(asked);
        let kinds: Vec<u8> = cells.iter().map(|cell| cell.kind).collect();
        Ok(sheet_of(names, &kinds, start as u32, end as u32).bytes())
    }

    /// The case of a row, over that schema.
    pub fn case(&self, label: &[u8], row: u32, schema: Vec<u8>) -> TextCase {
        let expected = Some(self.answer(label, row));
        let (text, label) = (self.text(), label.to_vec());
        TextCase { text, label, row, schema, way: Way::Kept, expected }
    }
}

/// Unquoted cells with their kinds: each kind, and what comes near it.
const CELLS: &[(&str, u8)] = &[
    ("", NULL),
    ("true", BOOL),
    ("false", BOOL),
    ("0", INT),
    ("-0", INT),
    ("007", INT),
    ("999999999999999999", INT),
    ("-999999999999999999", INT),
    ("0.0", FLOAT),
    ("-0.5", FLOAT),
    ("12.50", FLOAT),
    ("9999999999999999999.9999999999999999999", FLOAT),
    ("9999999999999999999", STRING),
    ("-9999999999999999999", STRING),
    ("0000000000000000001", STRING),
    ("-", STRING),
    ("--1", STRING),
    ("+1", STRING),
    ("1-", STRING),
    ("1.", STRING),
    (".5", STRING),
    ("-.5", STRING),
    ("-1.", STRING),
    (".", STRING),
    ("-.", STRING),
    ("1.2.3", STRING),
    ("1..2", STRING),
    ("1.-2", STRING),
    ("1e3", STRING),
    ("1.5e3", STRING),
    ("1:5", STRING),
    ("1/5", STRING),
    ("0x10", STRING),
    (" 1", STRING),
    ("1 ", STRING),
    (" ", STRING),
    ("True", STRING),
    ("FALSE", STRING),
    ("true ", STRING),
    (" false", STRING),
    ("tru", STRING),
    ("truee", STRING),
    ("null", STRING),
    ("NULL", STRING),
    ("'a'", STRING),
    ("٣", STRING),
    ("é", STRING),
];

/// Null and Bool stand first among them.
const NO_NUMBERS: usize = 3;

/// Bytes that a quoted field may hold.
const IN_QUOTES: &[u8] = b"a1 ,\"\r\n~!#+-\x80\xc3\xa9\xff";
/// And one without quotes.
const IN_PLAIN: &[u8] = b"az09 !#+-.~\x80\xbf\xc3\xff";

fn some_bytes(from: &[u8], most: usize, rng: &mut Rng) -> Vec<u8> {
    (0..rng.below(most + 1)).map(|_| *rng.pick(from)).collect()
}

fn digits(most: usize, rng: &mut Rng) -> String {
    (0..=rng.below(most)).map(|_| char::from(b'0' + rng.below(10) as u8)).collect()
}

/// A cell of any kind.
fn cell(rng: &mut Rng) -> Written {
    let minus = *rng.pick(&["", "-"]);
    match rng.weighted(&[8, 2, 1, 2, 3, 2]) {
        0 => {
            let (text, kind) = *rng.pick(CELLS);
            if rng.chance(15) {
                Written::quoted(text.as_bytes())
            } else {
                Written::plain(text.as_bytes(), kind)
            }
        }
        1 => {
            let number = digits(20, rng);
            let kind = if number.len() <= 18 { INT } else { STRING };
            Written::plain(format!("{minus}{number}").as_bytes(), kind)
        }
        2 => {
            let number = format!("{minus}{}.{}", digits(25, rng), digits(25, rng));
            Written::plain(number.as_bytes(), FLOAT)
        }
        3 => Written::quoted(&some_bytes(IN_QUOTES, 8, rng)),
        4 => {
            let (text, kind) = CELLS[rng.below(NO_NUMBERS)];
            Written::plain(text.as_bytes(), kind)
        }
        _ => Written::plain(&[b"x", &some_bytes(IN_PLAIN, 8, rng)[..]].concat(), STRING),
    }
}

/// Headers: plain, empty, prefixes of each other, with what must be quoted, at
/// the edges of UTF-8, with a byte-order mark.
const HEADERS: &[&str] = &[
    "stage",
    "green",
    "site",
    "",
    "a",
    "ab",
    "é",
    "日本",
    "🚦",
    "a,b",
    "say \"x\"",
    "\"",
    "line\r\nend",
    "\n",
    "1",
    "true",
    " a",
    "\u{feff}stage",
    "\u{7ff}\u{800}",
    "\u{d7ff}\u{e000}",
    "\u{ffff}\u{10000}",
    "\u{10ffff}",
];

/// Not UTF-8; two of them only because a quote stands between their bytes.
const NOT_UTF8: &[&[u8]] = &[
    b"\xff",
    b"\x80",
    b"\xc3",
    b"a\xc3",
    b"\xc3\"\xa9",
    b"\xe2\x82\"\xac",
    b"\xc0\x80",
    b"\xc1\xbf",
    b"\xe0\x9f\xbf",
    b"\xed\xa0\x80",
    b"\xf0\x8f\xbf\xbf",
    b"\xf4\x90\x80\x80",
    b"\xf5\x80\x80\x80",
    b"\xc3,\xa9",
];

const LABELS: &[&str] = &["Phase", "A", "", "é", "stage", "a,b\r\n\"", "\u{0}"];

/// A header of a few texts, one in forty not UTF-8.
fn header(texts: &[&str], rng: &mut Rng) -> Written {
    if rng.below(40) == 0 {
        let content = *rng.pick(NOT_UTF8);
        return Written::either(content, rng);
    }
    let content = *rng.pick(texts);
    Written::either(content.as_bytes(), rng)
}

fn label(rng: &mut Rng) -> Vec<u8> {
    match rng.below(40) {
        0 => rng.pick(NOT_UTF8).to_vec(),
        _ => rng.pick(LABELS).as_bytes().to_vec(),
    }
}

/// A row of that width, or by chance of another, or an empty line.
fn row(width: usize, rng: &mut Rng) -> Vec<Written> {
    let width = match rng.below(24) {
        0 | 1 => width + 1,
        2 | 3 => (width - 1).max(1),
        4 => return vec![Written::plain(b"", NULL)],
        _ => width,
    };
    (0..width).map(|_| cell(rng)).collect()
}

fn table(rng: &mut Rng) -> Table {
    let texts: Vec<&str> = (0..1 + rng.below(8)).map(|_| *rng.pick(HEADERS)).collect();
    let width = 1 + rng.weighted(&[3, 3, 4, 3, 2, 1, 1, 1]);
    let header = (0..width).map(|_| header(&texts, rng)).collect();
    let rows = (0..rng.weighted(&[1, 4, 4, 3, 2, 1])).map(|_| row(width, rng)).collect();
    Table { header, rows, ended: rng.chance(60) }
}

/// One of the rows, or by chance one that is not there.
fn asked(rows: usize, rng: &mut Rng) -> u32 {
    match rng.below(14) {
        0 => rows as u32,
        1 => *rng.pick(&[rows as u32 + 1, u32::MAX, u32::MAX - 1]),
        _ => rng.below(rows) as u32,
    }
}

/// Fields that break the grammar, whatever stands around them.
const BROKEN: &[&[u8]] = &[
    b"a\"b",
    b"a\"",
    b" \"a\"",
    b"\xff\"",
    b"a\rb",
    b"a\nb",
    b"\r",
    b"\n",
    b"a\r",
    b"\"a\"b",
    b"\"a\" ",
    b"\"\"a",
    b"\"\"a\"\"",
    b"\"a\"\r",
    b"\"a\"\n",
    b"\"a\"\rb",
    b"\t",
    b"a\x00",
    b"\x1f",
    b"\x7f",
    b"a\x0bb",
    b"\"\x00\"",
    b"\"\t\"",
    b"\"a\x1f",
    b"\"\x7f\"",
];

/// Fields that leave quotes open; at a text's end they break the grammar.
const UNCLOSED: &[&[u8]] = &[b"\"", b"\"a", b"\"a\"\"", b"\"a,b\r\nc", b"\"\"\"", b"\"\r\n"];

/// The table with a field that breaks the grammar, in any row.
fn broken(mut table: Table, rng: &mut Rng) -> Table {
    let at = rng.below(table.rows.len() + 1);
    let fields = if at == 0 { &mut table.header } else { &mut table.rows[at - 1] };
    let column = rng.below(fields.len());
    fields[column].bytes = rng.pick(BROKEN).to_vec();
    table
}

/// The table with quotes open from its last field on.
fn unclosed(mut table: Table, rng: &mut Rng) -> Table {
    let fields = table.rows.last_mut().unwrap_or(&mut table.header);
    let last = fields.last_mut().expect("a field");
    last.bytes = rng.pick(UNCLOSED).to_vec();
    table
}

/// Bytes that mean something, and some that do not.
const BYTES: &[u8] = b"\r\n\r\n,,\"\"\"a1-.\x00\x1f\x7f\x80\xff\t";

fn damaged(way: Way, mut text: Vec<u8>, rng: &mut Rng) -> Vec<u8> {
    let at = rng.below(text.len());
    match way {
        Way::Changed if !text.is_empty() => text[at] = *rng.pick(BYTES),
        Way::Removed if !text.is_empty() => {
            text.remove(at);
        }
        Way::Inserted => text.insert(rng.below(text.len() + 1), *rng.pick(BYTES)),
        Way::Cut => text.truncate(at),
        Way::Noise => text = some_bytes(BYTES, 30, rng),
        _ => {}
    }
    text
}

/// Of twenty texts so many in each way.
const WEIGHTS: [usize; 8] = [10, 2, 1, 2, 1, 2, 1, 1];

/// The `number`-th text of a seed.
pub fn text_case(seed: u64, number: u64) -> TextCase {
    let mut rng = Rng::new(seed.rotate_left(16), number);
    let way = WAYS[rng.weighted(&WEIGHTS)];
    let mut table = table(&mut rng);
    let label = label(&mut rng);
    let row = asked(table.rows.len(), &mut rng);
    let schema = schema(&label, &table.header, &mut rng);
    match way {
        Way::Broken => table = broken(table, &mut rng),
        Way::Unclosed => table = unclosed(table, &mut rng),
        _ => {}
    }
    let case = TextCase { way, ..table.case(&label, row, schema) };
    match way {
        Way::Kept => case,
        Way::Broken | Way::Unclosed => {
            TextCase { expected: Some(Err(Refusal::neither(17))), ..case }
        }
        _ => TextCase { text: damaged(way, case.text, &mut rng), expected: None, ..case },
    }
}

/// How many headers a schema speaks of, and how long they may be.
const DECLARED: usize = 20;
const DECLARED_BYTES: usize = 100;

/// A schema that declares the label, mostly, with some of the headers.
fn schema(label: &[u8], header: &[Written], rng: &mut Rng) -> Vec<u8> {
    let short = |text: &&str| text.len() <= DECLARED_BYTES;
    let texts = header.iter().take(DECLARED);
    let texts = texts.filter_map(|field| std::str::from_utf8(&field.content).ok()).filter(short);
    let mut keys: Vec<&str> = texts.collect();
    keys.push("no header");
    let label = std::str::from_utf8(label).ok().filter(short).filter(|_| rng.chance(85));
    let items = label_items(&keys, rng);
    let label = build::declared(101, label.unwrap_or("other"), items);
    // Of the thin kind where the number of keys is odd: a draw would change all that follows.
    let kind = SheetKind::ALL[keys.len() % 2];
    build::schema(vec![label]).raw().in_kind(kind).bytes()
}

/// Properties for two keys of three, and sometimes tuples.
fn label_items(keys: &[&str], rng: &mut Rng) -> Vec<Tree> {
    let mut items = Vec::new();
    for key in keys {
        if rng.chance(65) {
            let lists = u32::from(rng.chance(5));
            let base = 120 + rng.below(9) as u8;
            items.push(build::property(key, Tree::leaf(base, lists)));
        }
    }
    for _ in 0..rng.weighted(&[2, 2, 1]) {
        let some = (0..rng.below(3)).map(|_| *rng.pick(keys));
        items.push(build::tuple(some.collect::<Vec<_>>()));
    }
    items
}

/// Texts at and past each limit, and long ones.
pub fn limits() -> Vec<TextCase> {
    let mut cases = Vec::new();
    for over in [0, 1] {
        cases.push(wide(MAX_NAMES as usize - 1 + over, b""));
        cases.push(wide(MAX_NAMES as usize - 1 + over, b"\xff"));
        cases.push(long(MAX_TEXT as usize + over, b'n', false));
        cases.push(long(MAX_TEXT as usize + over, b'"', true));
        cases.push(long_label(MAX_TEXT as usize + over));
    }
    cases.push(wide(MAX_NAMES as usize + 76, b"\xff"));
    cases.extend(long_cells());
    cases
}

/// Texts at and past the limits that are short enough to be stored: as many
/// headers as a sheet has names for, one more, and one more that is not UTF-8;
/// as many bytes of names, and one more.
pub fn stored_limits() -> Vec<TextCase> {
    let (columns, bytes) = (MAX_NAMES as usize - 1, MAX_TEXT as usize);
    vec![
        wide(columns, b""),
        wide(columns + 1, b""),
        wide(columns + 1, b"\xff"),
        long(bytes, b'n', false),
        long(bytes + 1, b'n', false),
    ]
}

/// Short texts: some that are refused, and every cell of the list above alone
/// in a row, as it is and in quotes.
pub fn small() -> Vec<TextCase> {
    let key = || vec![Written::plain(b"k", STRING)];
    let plain = |(text, kind): &(&str, u8)| Written::plain(text.as_bytes(), *kind);
    let quoted = |(text, _): &(&str, u8)| Written::quoted(text.as_bytes());
    let cells = CELLS.iter().map(plain).chain(CELLS.iter().map(quoted));
    fixed().into_iter().chain(cells.map(|cell| of_first(key(), vec![cell]))).collect()
}

/// A case of row 0 for the label P, over a schema that declares nothing.
fn of_first(header: Vec<Written>, row: Vec<Written>) -> TextCase {
    let nothing = build::schema(Vec::new()).raw().bytes();
    Table { header, rows: vec![row], ended: true }.case(b"P", 0, nothing)
}

/// As many columns, the last header as given.
fn wide(columns: usize, last: &[u8]) -> TextCase {
    let mut header: Vec<Written> =
        (0..columns).map(|i| Written::plain(i.to_string().as_bytes(), STRING)).collect();
    header[columns - 1] = Written::plain(last, STRING);
    let cell = |i: usize| {
        let (text, kind) = CELLS[i % CELLS.len()];
        Written::plain(text.as_bytes(), kind)
    };
    of_first(header, (0..columns).map(cell).collect())
}

/// Names of so many bytes together, in two headers.
fn long(bytes: usize, byte: u8, quoted: bool) -> TextCase {
    let content = vec![byte; bytes - b"P".len()];
    let (some, others) = content.split_at(bytes / 3);
    let written = |part: &[u8]| match quoted {
        true => Written::quoted(part),
        false => Written::plain(part, STRING),
    };
    of_first(vec![written(some), written(others)], vec![Written::plain(b"1", INT); 2])
}

/// A label of so many bytes, and an empty header.
fn long_label(bytes: usize) -> TextCase {
    let nothing = build::schema(Vec::new()).raw().bytes();
    let empty = || vec![Written::plain(b"", NULL)];
    Table { header: empty(), rows: vec![empty()], ended: true }.case(&vec![b'l'; bytes], 0, nothing)
}

/// Many bytes of a long cell.
const LONG_CELL: usize = 1 << 18;

/// Cells that are long and end otherwise than they begin, and many rows.
fn long_cells() -> Vec<TextCase> {
    let one = |cell: Written| of_first(vec![Written::plain(b"k", STRING)], vec![cell]);
    let digits = vec![b'1'; LONG_CELL];
    let float = [&digits[..], b".", &digits[..]].concat();
    let twice = [&float[..], b".1"].concat();
    let rows: Vec<Vec<Written>> = (0..3_000).map(|_| vec![Written::plain(b"", NULL)]).collect();
    let last = rows.len() as u32 - 1;
    let many = Table { header: vec![Written::plain(b"k", STRING)], rows, ended: true };
    vec![
        one(Written::plain(&digits, STRING)),
        one(Written::plain(&float, FLOAT)),
        one(Written::plain(&twice, STRING)),
        one(Written::quoted(&vec![b'"'; LONG_CELL])),
        many.case(b"", last, build::schema(Vec::new()).raw().bytes()),
        many.case(b"", last + 1, build::schema(Vec::new()).raw().bytes()),
    ]
}

/// Short texts whose answer is known: a text, a label, a row, number, sheet
/// and place.
type Fixed = (&'static [u8], &'static [u8], u32, [u32; 3]);

const FIXED: &[Fixed] = &[
    (b"", b"A", 0, [18, 0, 0]),
    (b"", b"\xff", u32::MAX, [18, 0, 0]),
    (b"a", b"A", 0, [18, 0, 0]),
    (b"a\r\n", b"A", 0, [18, 0, 0]),
    (b"\r\n", b"A", 0, [18, 0, 0]),
    (b"\xff\r\n1,2", b"\xff", 0, [18, 0, 0]),
    (b"\xff\r\n1\r\n\x00", b"A", 0, [17, 0, 0]),
    (b"\xff\r\n1\r\n", b"A", 0, [5, 1, 1]),
    (b"a\r\n1\r\n", b"\xff", 0, [5, 1, 0]),
    (b"\"\xc3\"\"\xa9\"\r\n1\r\n", b"A", 0, [5, 1, 1]),
    (b"a\r\n1\r", b"A", 0, [17, 0, 0]),
    (b"a\r\n1\r\n\r", b"A", 0, [17, 0, 0]),
    (b"a\r\n\"", b"A", 0, [17, 0, 0]),
    (b"a\n1\n", b"A", 0, [17, 0, 0]),
];

fn fixed() -> Vec<TextCase> {
    let case = |(text, label, row, [number, sheet, place]): &Fixed| TextCase {
        text: text.to_vec(),
        label: label.to_vec(),
        row: *row,
        schema: build::schema(Vec::new()).raw().bytes(),
        way: Way::Kept,
        expected: Some(Err(Refusal { number: *number, sheet: *sheet, place: *place })),
    };
    FIXED.iter().map(case).collect()
}
