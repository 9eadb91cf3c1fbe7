//! Request 2.1 from document 02: comma-separated text by the grammar of RFC
//! 4180, read into fields, and the statement sheet of one row.

use crate::sheet::{MAX_NAMES, MAX_TEXT, Refusal, fits};
use crate::tree::Raw;

/// A field with its quoting undone, and whether it was quoted.
#[derive(Clone, Debug, PartialEq, Eq)]
pub struct Field {
    pub quoted: bool,
    pub content: Vec<u8>,
}

/// A row: its fields, the range of its bytes without the line end, and where
/// the next row would begin.
#[derive(Clone, Debug, PartialEq, Eq)]
pub struct Row {
    pub fields: Vec<Field>,
    pub start: usize,
    pub stop: usize,
    pub next: usize,
}

/// Where a text breaks the grammar: at the first byte that can not stand
/// there, or at the text's end where something had to follow.
#[derive(Clone, Copy, Debug, PartialEq, Eq)]
pub struct Broken(pub usize);

/// TEXTDATA of the grammar; bytes from 128 up count as text.
fn is_text(byte: u8) -> bool {
    matches!(byte, 0x20..=0x21 | 0x23..=0x2b | 0x2d..=0x7e | 0x80..=0xff)
}

/// How many bytes of a field's kind come first.
fn run_of(bytes: &[u8], allowed: impl Fn(u8) -> bool) -> usize {
    bytes.iter().position(|byte| !allowed(*byte)).unwrap_or(bytes.len())
}

/// `escaped`, the opening quote already passed: the field, and where the byte
/// after its closing quote stands.
fn escaped(text: &[u8], mut at: usize) -> Result<(Field, usize), Broken> {
    let mut content = Vec::new();
    loop {
        let run = run_of(&text[at..], |byte| is_text(byte) || matches!(byte, b',' | b'\r' | b'\n'));
        content.extend(&text[at..at + run]);
        at += run;
        match text[at..] {
            [b'"', b'"', ..] => content.push(b'"'),
            [b'"', ..] => return Ok((Field { quoted: true, content }, at + 1)),
            _ => return Err(Broken(at)),
        }
        at += 2;
    }
}

/// `field`: what it holds, and where it ends.
fn field(text: &[u8], at: usize) -> Result<(Field, usize), Broken> {
    if text[at..].starts_with(b"\"") {
        return escaped(text, at + 1);
    }
    let end = at + run_of(&text[at..], is_text);
    Ok((Field { quoted: false, content: text[at..end].to_vec() }, end))
}

/// The line end at a place, where no comma stands: where the next row begins.
fn line_end(text: &[u8], at: usize) -> Result<usize, Broken> {
    match text[at..] {
        [] => Ok(at),
        [b'\r', b'\n', ..] => Ok(at + 2),
        [b'\r', ..] => Err(Broken(at + 1)),
        _ => Err(Broken(at)),
    }
}

/// `record` with its line end, from `start` on.
fn record(text: &[u8], start: usize) -> Result<Row, Broken> {
    let mut fields = Vec::new();
    let mut at = start;
    loop {
        let (found, stop) = field(text, at)?;
        fields.push(found);
        if !text[stop..].starts_with(b",") {
            return Ok(Row { fields, start, stop, next: line_end(text, stop)? });
        }
        at = stop + 1;
    }
}

/// The row that begins at a place, through its line end. None where the text
/// has no byte there.
pub fn next_row(text: &[u8], at: usize) -> Result<Option<Row>, Broken> {
    if at >= text.len() { Ok(None) } else { record(text, at).map(Some) }
}

/// All rows of a text, the header first.
pub fn rows(text: &[u8]) -> Result<Vec<Row>, Broken> {
    let mut rows = Vec::new();
    let mut at = 0;
    while let Some(row) = next_row(text, at)? {
        at = row.next;
        rows.push(row);
    }
    Ok(rows)
}

/// Kinds of the tokens that a row's sheet has.
const STATEMENT: u8 = 90;
const MERGE: u8 = 72;
const PATTERN: u8 = 60;
const PART: u8 = 61;
const NODE: u8 = 62;
const NUMBER: u8 = 51;
const NAME: u8 = 50;
const MAP: u8 = 14;
pub const NULL: u8 = 1;
pub const BOOL: u8 = 2;
pub const INT: u8 = 3;
pub const FLOAT: u8 = 4;
pub const STRING: u8 = 5;

/// The most digits of an Int.
const INT_DIGITS: usize = 18;

/// A Node of one label with properties.
const ONE_LABEL_AND_PROPERTIES: u32 = 3;

fn is_number(digits: &str) -> bool {
    !digits.is_empty() && digits.bytes().all(|byte| byte.is_ascii_digit())
}

/// The literal's kind that a cell has.
pub fn kind(cell: &Field) -> u8 {
    let Ok(text) = std::str::from_utf8(&cell.content) else { return STRING };
    match text {
        _ if cell.quoted => STRING,
        "" => NULL,
        "true" | "false" => BOOL,
        _ => kind_of_number(text.strip_prefix('-').unwrap_or(text)),
    }
}

fn kind_of_number(text: &str) -> u8 {
    match text.split_once('.') {
        None if is_number(text) && text.len() <= INT_DIGITS => INT,
        Some((whole, fraction)) if is_number(whole) && is_number(fraction) => FLOAT,
        _ => STRING,
    }
}

/// The sheet of the statement: MERGE of one node from `start` to `stop`, the
/// label name 0, a key and a literal for each column.
pub fn sheet_of(names: Vec<Vec<u8>>, kinds: &[u8], start: u32, stop: u32) -> Raw {
    let columns = kinds.len() as u32;
    let mut tokens = vec![(STATEMENT, 1), (MERGE, 0), (PATTERN, 1), (PART, 1)];
    tokens.push((NODE, ONE_LABEL_AND_PROPERTIES));
    tokens.extend([(NUMBER, start), (NUMBER, stop), (NAME, 0), (MAP, columns)]);
    for (column, kind) in kinds.iter().enumerate() {
        tokens.extend([(NAME, column as u32 + 1), (*kind, 0)]);
    }
    Raw::new(tokens, names)
}

/// 5: the first name that is not UTF-8, the label being name 0.
fn all_utf8(names: &[Vec<u8>]) -> Result<(), Refusal> {
    match names.iter().position(|name| std::str::from_utf8(name).is_err()) {
        Some(name) => {
            Err(Refusal { number: 5, sheet: 1, place: u32::try_from(name).unwrap_or(u32::MAX) })
        }
        None => Ok(()),
    }
}

/// 19: more names or bytes of them than a sheet may have, or a span's end that
/// is no u32. The span otherwise.
pub fn within_limits(names: &[Vec<u8>], start: usize, stop: usize) -> Result<[u32; 2], Refusal> {
    let bytes: usize = names.iter().map(Vec::len).sum();
    if names.len() > MAX_NAMES as usize || bytes > MAX_TEXT as usize {
        return Err(Refusal::neither(19));
    }
    match (u32::try_from(start), u32::try_from(stop)) {
        (Ok(start), Ok(stop)) => Ok([start, stop]),
        _ => Err(Refusal::neither(19)),
    }
}

/// The sheet of a row, counted from 0 behind the header, with as many bytes
/// lent as `room` says.
pub fn row_statement(text: &[u8], label: &[u8], row: u32, room: usize) -> Result<Vec<u8>, Refusal> {
    let rows = rows(text).map_err(|_| Refusal::neither(17))?;
    let (header, rows) = rows.split_first().ok_or(Refusal::neither(18))?;
    let row = rows.get(row as usize).ok_or(Refusal::neither(18))?;
    if row.fields.len() != header.fields.len() {
        return Err(Refusal::neither(18));
    }
    let headers = header.fields.iter().map(|field| field.content.clone());
    let names: Vec<Vec<u8>> = [label.to_vec()].into_iter().chain(headers).collect();
    all_utf8(&names)?;
    let [start, stop] = within_limits(&names, row.start, row.stop)?;
    let kinds: Vec<u8> = row.fields.iter().map(kind).collect();
    let sheet = sheet_of(names, &kinds, start, stop).bytes();
    fits(sheet.len(), room).map(|()| sheet)
}
