//! The reader of sheets, from document 01: the frame, UTF-8, both grammars,
//! and the refusals 1 to 13 with number, sheet and place. Document 02's thin
//! kind of sheet (request 2.6) is read beside the first.

use crate::grammar::{Class, rule_in};

pub const MAX_TOKENS: u32 = 4_096;
pub const MAX_NAMES: u32 = 1_024;
pub const MAX_TEXT: u32 = 32_768;
pub const MAX_DEPTH: u32 = 64;

/// Number, sheet (1 statement, 2 schema, 0 neither) and place.
#[derive(Clone, Copy, Debug, PartialEq, Eq)]
pub struct Refusal {
    pub number: u32,
    pub sheet: u32,
    pub place: u32,
}

impl Refusal {
    /// Of neither sheet, and of no place.
    pub const fn neither(number: u32) -> Self {
        Refusal { number, sheet: 0, place: 0 }
    }
}

/// 16: more places are needed than are lent.
pub fn fits(needed: usize, lent: usize) -> Result<(), Refusal> {
    if needed > lent { Err(Refusal::neither(16)) } else { Ok(()) }
}

/// In a token count the bit that marks a thin sheet; the others count.
const THIN_MARK: u32 = 1 << 31;

/// A kind of sheet, by the width of its name ends.
#[derive(Clone, Copy, Debug, Default, PartialEq, Eq, PartialOrd, Ord)]
pub enum SheetKind {
    /// Ends of four bytes.
    #[default]
    First,
    /// Ends of two bytes.
    Thin,
}

impl SheetKind {
    pub const ALL: [SheetKind; 2] = [SheetKind::First, SheetKind::Thin];

    /// That of a sheet, by its token count; too short for one, it has the first.
    pub fn of(bytes: &[u8]) -> Self {
        match bytes.get(..4) {
            Some(count) if u32_at(count, 0) & THIN_MARK != 0 => SheetKind::Thin,
            _ => SheetKind::First,
        }
    }

    /// What its token count has beside the tokens.
    pub fn mark(self) -> u32 {
        match self {
            SheetKind::First => 0,
            SheetKind::Thin => THIN_MARK,
        }
    }

    /// Bytes of an end.
    pub fn end_width(self) -> usize {
        match self {
            SheetKind::First => 4,
            SheetKind::Thin => 2,
        }
    }
}

/// Which of the two sheets is read.
#[derive(Clone, Copy, Debug, PartialEq, Eq)]
pub enum Which {
    Statement,
    Schema,
}

impl Which {
    pub fn number(self) -> u32 {
        match self {
            Which::Statement => 1,
            Which::Schema => 2,
        }
    }

    /// The kind of its token 0.
    pub fn first_kind(self) -> u8 {
        match self {
            Which::Statement => 90,
            Which::Schema => 100,
        }
    }

    pub fn class(self) -> Class {
        match self {
            Which::Statement => Class::Statement,
            Which::Schema => Class::Schema,
        }
    }
}

/// A token read: what stands in the sheet and where it belongs.
#[derive(Clone, Debug, PartialEq, Eq)]
pub struct Token {
    pub kind: u8,
    pub value: u32,
    pub parent: usize,
    pub depth: u32,
    pub kids: Vec<usize>,
}

/// A sheet that was read: tokens with their places, and names. Its kind is no
/// part of it.
#[derive(Clone, Debug, PartialEq, Eq)]
pub struct Sheet {
    pub tokens: Vec<Token>,
    pub names: Vec<String>,
}

impl Sheet {
    pub fn kind(&self, token: usize) -> u8 {
        self.tokens[token].kind
    }

    pub fn value(&self, token: usize) -> u32 {
        self.tokens[token].value
    }

    pub fn kids(&self, token: usize) -> &[usize] {
        &self.tokens[token].kids
    }

    /// The text of a Name token.
    pub fn text(&self, token: usize) -> &str {
        &self.names[self.tokens[token].value as usize]
    }

    /// The Name tokens directly under a token, in order.
    pub fn names_under(&self, token: usize) -> Vec<usize> {
        self.kids_of_kind(token, 50)
    }

    /// Their texts.
    pub fn texts_under(&self, token: usize) -> Vec<&str> {
        self.names_under(token).iter().map(|name| self.text(*name)).collect()
    }

    pub fn kids_of_kind(&self, token: usize, kind: u8) -> Vec<usize> {
        let kids = self.kids(token).iter().copied();
        kids.filter(|kid| self.kind(*kid) == kind).collect()
    }
}

/// Number and place; the sheet is known to the caller.
type Found = (u32, usize);

/// 1 to 9 of the statement sheet.
pub fn read_statement(bytes: &[u8]) -> Result<Sheet, Refusal> {
    read_form(bytes, Which::Statement)
}

/// 1 to 9 of the schema sheet, then 10 to 13.
pub fn read_schema(bytes: &[u8]) -> Result<Sheet, Refusal> {
    let sheet = read_form(bytes, Which::Schema)?;
    match declared_again(&sheet).or_else(|| apart_of_equals(&sheet)) {
        Some(found) => Err(refused(Which::Schema, found)),
        None => Ok(sheet),
    }
}

/// 1 to 9 alone.
pub fn read_form(bytes: &[u8], which: Which) -> Result<Sheet, Refusal> {
    read_frame(bytes)
        .and_then(|frame| read_tokens(&frame, which.class()).map(|tokens| (frame, tokens)))
        .map(|(frame, tokens)| Sheet { tokens, names: frame.names })
        .map_err(|found| refused(which, found))
}

fn refused(which: Which, (number, place): Found) -> Refusal {
    Refusal { number, sheet: which.number(), place: place as u32 }
}

/// Kinds and values side by side, and the names, of a frame that holds.
struct Frame {
    kinds: Vec<u8>,
    values: Vec<u32>,
    names: Vec<String>,
}

fn u32_at(bytes: &[u8], at: usize) -> u32 {
    u32::from_le_bytes(bytes[at..at + 4].try_into().expect("four bytes"))
}

fn u32s(bytes: &[u8]) -> Vec<u32> {
    bytes.chunks_exact(4).map(|four| u32_at(four, 0)).collect()
}

/// A number of so many bytes, the low one first.
fn number(bytes: &[u8]) -> usize {
    bytes.iter().rev().fold(0, |above, byte| 256 * above + usize::from(*byte))
}

/// 1 to 5, each over the whole sheet.
fn read_frame(bytes: &[u8]) -> Result<Frame, Found> {
    if bytes.len() < 12 {
        return Err((1, 0));
    }
    let sizes = u32s(&bytes[..12]);
    let tokens = sizes[0] & !THIN_MARK;
    let in_range =
        (1..=MAX_TOKENS).contains(&tokens) && sizes[1] <= MAX_NAMES && sizes[2] <= MAX_TEXT;
    if !in_range {
        return Err((2, 0));
    }
    let [t, m, b] = [tokens as usize, sizes[1] as usize, sizes[2] as usize];
    let width = SheetKind::of(bytes).end_width();
    if bytes.len() != 12 + 5 * t + width * m + b {
        return Err((3, 0));
    }
    let (kinds, rest) = bytes[12..].split_at(t);
    let (values, rest) = rest.split_at(4 * t);
    let (ends, text) = rest.split_at(width * m);
    let ends: Vec<usize> = ends.chunks_exact(width).map(number).collect();
    check_ends(&ends, b)?;
    let names = read_names(&ends, text)?;
    Ok(Frame { kinds: kinds.to_vec(), values: u32s(values), names })
}

/// 4: ends fall, pass the text, or stop short of it.
fn check_ends(ends: &[usize], b: usize) -> Result<(), Found> {
    let mut last = 0;
    for (i, end) in ends.iter().copied().enumerate() {
        if end < last || end > b {
            return Err((4, i));
        }
        last = end;
    }
    if last < b { Err((4, ends.len())) } else { Ok(()) }
}

/// 5: a name not UTF-8; std's rule is that of RFC 3629.
fn read_names(ends: &[usize], text: &[u8]) -> Result<Vec<String>, Found> {
    let mut start = 0;
    let mut names = Vec::with_capacity(ends.len());
    for (i, end) in ends.iter().copied().enumerate() {
        let name = std::str::from_utf8(&text[start..end]).map_err(|_| (5, i))?;
        names.push(name.to_owned());
        start = end;
    }
    Ok(names)
}

/// 6, 7 and 8 in token order, then 9.
fn read_tokens(frame: &Frame, class: Class) -> Result<Vec<Token>, Found> {
    let mut reader = Reader { frame, tokens: Vec::new() };
    reader.read(class, None)?;
    let read = reader.tokens.len();
    if read < frame.kinds.len() { Err((9, read)) } else { Ok(reader.tokens) }
}

struct Reader<'a> {
    frame: &'a Frame,
    tokens: Vec<Token>,
}

impl Reader<'_> {
    /// Reads one token in its place and all that belongs to it. A count is
    /// never judged beforehand: a later 6 or 7 comes before 8.
    fn read(&mut self, class: Class, parent: Option<usize>) -> Result<(), Found> {
        let at = self.tokens.len();
        if at == self.frame.kinds.len() {
            return Err((8, at));
        }
        let (kind, value) = (self.frame.kinds[at], self.frame.values[at]);
        let rule = rule_in(class, kind).ok_or((6, at))?;
        if !rule.values.allow(value) || !self.allowed_beyond(class, value, at) {
            return Err((6, at));
        }
        let depth = parent.map_or(0, |up| self.tokens[up].depth + 1);
        if depth > MAX_DEPTH {
            return Err((7, at));
        }
        if let Some(up) = parent {
            self.tokens[up].kids.push(at);
        }
        let parent = parent.unwrap_or(0);
        self.tokens.push(Token { kind, value, parent, depth, kids: Vec::new() });
        for slot in rule.holds {
            for _ in 0..slot.times.count(value) {
                for class in slot.of {
                    self.read(*class, Some(at))?;
                }
            }
        }
        Ok(())
    }

    /// A Name below M; an end not below the start, which stands before it.
    fn allowed_beyond(&self, class: Class, value: u32, at: usize) -> bool {
        match class {
            Class::Name => (value as usize) < self.frame.names.len(),
            Class::End => value >= self.frame.values[at - 1],
            _ => true,
        }
    }
}

/// 10, 11, 12: the first declaration whose name an earlier one of its kind has.
fn declared_again(sheet: &Sheet) -> Option<Found> {
    [(10, 101), (11, 102), (12, 103)].into_iter().find_map(|(number, kind)| {
        let mut seen: Vec<&str> = Vec::new();
        for token in sheet.kids_of_kind(0, kind) {
            let name = sheet.text(sheet.kids(token)[0]);
            if seen.contains(&name) {
                return Some((number, token));
            }
            seen.push(name);
        }
        None
    })
}

/// 13: the first Apart of equal texts.
fn apart_of_equals(sheet: &Sheet) -> Option<Found> {
    let equal = |token: &usize| {
        let pair = sheet.texts_under(*token);
        pair[0] == pair[1]
    };
    sheet.kids_of_kind(0, 106).into_iter().find(equal).map(|token| (13, token))
}
