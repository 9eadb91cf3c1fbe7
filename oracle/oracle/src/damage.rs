//! Damaged copies of valid sheets. Each says which refusal it must draw.

use crate::rng::Rng;
use crate::sheet::{
    MAX_DEPTH, MAX_NAMES, MAX_TEXT, MAX_TOKENS, Sheet, SheetKind, Which, read_form,
};
use crate::tree::{Raw, Tree};

/// Bytes, and the number and place of the refusal.
pub type Damaged = (Vec<u8>, u32, u32);

/// Names that RFC 3629 refuses: overlong, surrogate, too large, cut, stray.
const NOT_UTF8: &[&[u8]] = &[
    b"\xc0\x80",
    b"\xc1\xbf",
    b"\xe0\x80\x80",
    b"\xed\xa0\x80",
    b"\xf4\x90\x80\x80",
    b"\xf5",
    b"\xe2\x82",
    b"a\x80",
    b"\xff",
    b"\xf0\x8f\xbf\xbf",
    b"ok\xc3",
];

/// Kinds that stand nowhere.
const NO_KIND: &[u8] = &[0, 15, 31, 49, 52, 59, 64, 69, 86, 89, 91, 99, 107, 114, 119, 129, 255];

/// A copy that must be refused with `number`, if this sheet can be made so.
pub fn damaged(raw: &Raw, which: Which, number: u32, rng: &mut Rng) -> Option<Damaged> {
    let bytes = raw.bytes();
    let (bytes, place) = match number {
        1 => (bytes[..rng.below(12)].to_vec(), 0),
        2 => (bad_size(bytes, rng), 0),
        3 => (bad_length(bytes, raw, rng), 0),
        4 => bad_ends(raw, rng),
        5 => not_utf8(raw, rng)?,
        6 => bad_token(raw, which, rng)?,
        7 => too_deep(raw, which, rng)?,
        8 => run_out(raw, rng)?,
        9 => left_over(raw, rng)?,
        10..=12 if which == Which::Schema => declared_again(raw, number, rng)?,
        13 if which == Which::Schema => apart_of_equals(raw, rng)?,
        _ => return None,
    };
    Some((bytes, number, place as u32))
}

/// A fault of reading laid over bytes that have another, later fault.
pub fn earlier_fault(bytes: Vec<u8>, number: u32, rng: &mut Rng) -> Vec<u8> {
    match number {
        1 => bytes[..rng.below(12)].to_vec(),
        2 => bad_size(bytes, rng),
        _ => [bytes, vec![0; 1 + rng.below(9)]].concat(),
    }
}

fn put(bytes: &mut [u8], at: usize, value: u32) {
    bytes[at..at + 4].copy_from_slice(&value.to_le_bytes());
}

/// A size out of its range; the kind stays.
fn bad_size(mut bytes: Vec<u8>, rng: &mut Rng) -> Vec<u8> {
    let mark = SheetKind::of(&bytes).mark();
    let sizes = [
        (0, mark),
        (0, mark | (MAX_TOKENS + 1)),
        (0, mark | (u32::MAX >> 1)),
        (4, MAX_NAMES + 1),
        (4, 0x8000_0000),
        (8, MAX_TEXT + 1),
        (8, u32::MAX),
    ];
    let (at, size) = *rng.pick(&sizes);
    put(&mut bytes, at, size);
    bytes
}

/// Bytes cut off or appended, a token more, or ends of the other kind's width.
fn bad_length(mut bytes: Vec<u8>, raw: &Raw, rng: &mut Rng) -> Vec<u8> {
    match rng.below(5) {
        0 => bytes.push(0),
        1 => bytes.truncate(12 + rng.below(bytes.len() - 12)),
        2 if raw.tokens.len() < MAX_TOKENS as usize => {
            put(&mut bytes, 0, raw.kind.mark() | (raw.tokens.len() as u32 + 1));
        }
        3 if !raw.names.is_empty() => marked_otherwise(&mut bytes),
        _ => bytes.extend(vec![0xff; 1 + rng.below(60_000)]),
    }
    bytes
}

/// The mark of a thin sheet set where it is not, or taken away: right only
/// where there are no names.
pub fn marked_otherwise(bytes: &mut [u8]) {
    bytes[3] ^= SheetKind::Thin.mark().to_le_bytes()[3];
}

/// By how much the text is too long at most, where the ends stop short of it.
const SHORT_BY: usize = 5;

/// Ends that fall, pass the text, or stop short of it.
fn bad_ends(raw: &Raw, rng: &mut Rng) -> (Vec<u8>, usize) {
    let mut bytes = raw.bytes();
    let text: usize = raw.names.iter().map(Vec::len).sum();
    let i = rng.below(raw.names.len());
    let before: usize = raw.names.iter().take(i).map(Vec::len).sum();
    let way = rng.below(3);
    if way == 0 && before > 0 {
        put_end(&mut bytes, raw, i, rng.below(before) as u32);
        return (bytes, i);
    }
    let full = text + SHORT_BY > MAX_TEXT as usize;
    if (way == 1 || full) && !raw.names.is_empty() {
        let beyond = text as u32 + 1 + rng.below(9) as u32;
        let end = (before + raw.names[i].len()) as u32;
        let far = (end | spare_bit(raw.kind)).max(beyond);
        put_end(&mut bytes, raw, i, *rng.pick(&[beyond, u32::MAX, far]));
        return (bytes, i);
    }
    let more = 1 + rng.below(SHORT_BY);
    put(&mut bytes, 8, (text + more) as u32);
    bytes.extend(vec![b'x'; more]);
    (bytes, raw.names.len())
}

/// The lowest bit that no end but that of a full text has. A reader that leaves it
/// out finds the end right.
fn spare_bit(kind: SheetKind) -> u32 {
    match kind {
        SheetKind::First => 1 << 16,
        SheetKind::Thin => 1 << 15,
    }
}

/// Another end of a name, as far as it has room there.
fn put_end(bytes: &mut [u8], raw: &Raw, name: usize, end: u32) {
    let width = raw.kind.end_width();
    let at = 12 + 5 * raw.tokens.len() + width * name;
    bytes[at..at + width].copy_from_slice(&end.to_le_bytes()[..width]);
}

fn not_utf8(raw: &Raw, rng: &mut Rng) -> Option<(Vec<u8>, usize)> {
    let mut raw = raw.clone();
    if raw.names.is_empty() {
        return None;
    }
    let i = rng.below(raw.names.len());
    if i + 1 < raw.names.len() && rng.chance(30) {
        // A character split over two names.
        raw.names[i] = b"\xc3".to_vec();
        raw.names[i + 1] = b"\xa9".to_vec();
    } else {
        raw.names[i] = rng.pick(NOT_UTF8).to_vec();
    }
    Some((raw.bytes(), i))
}

/// A kind or value that is not allowed at one token; all before it stand.
fn bad_token(raw: &Raw, which: Which, rng: &mut Rng) -> Option<(Vec<u8>, usize)> {
    let mut raw = raw.clone();
    let sheet = read_form(&raw.bytes(), which).ok()?;
    let i = rng.below(raw.tokens.len());
    let names = raw.names.len() as u32;
    let (kind, value) = &mut raw.tokens[i];
    match *kind {
        50 if rng.chance(60) => *value = *rng.pick(&[names, names + 1, u32::MAX]),
        51 if rng.chance(60) => return ends_before(&raw, &sheet, i),
        1..=11 | 17..=19 | 21 | 22 | 27..=30 if rng.chance(60) => *value = 1,
        70..=73 | 76 | 80 | 81 | 83 | 106 | 112 | 113 if rng.chance(60) => *value = u32::MAX,
        23..=25 | 103 | 110 if rng.chance(60) => *value += 2,
        12 if rng.chance(60) => *value += 4,
        120..=128 if rng.chance(60) => *value = *rng.pick(&[64, 65, u32::MAX]),
        _ if rng.chance(70) => *kind = *rng.pick(NO_KIND),
        old => *kind = wrong_here(old, which),
    }
    Some((raw.bytes(), i))
}

/// A kind of the grammars that does not stand where `old` does.
fn wrong_here(old: u8, which: Which) -> u8 {
    match (old, which) {
        (90, _) => 100,
        (100, _) => 90,
        (80..=82, _) => 83,
        (83 | 84, _) => 82,
        (110..=113, _) => 106,
        (50, _) => 51,
        _ => 50,
    }
}

/// The start raised above the end, so that the end is refused.
fn ends_before(raw: &Raw, sheet: &Sheet, number: usize) -> Option<(Vec<u8>, usize)> {
    let numbers = sheet.kids_of_kind(sheet.tokens[number].parent, 51);
    let (start, end) = (numbers[0], numbers[1]);
    let mut raw = raw.clone();
    raw.tokens[start].1 = sheet.value(end).checked_add(1)?;
    Some((raw.bytes(), end))
}

/// A chain laid over a leaf until the depth passes the limit.
fn too_deep(raw: &Raw, which: Which, rng: &mut Rng) -> Option<(Vec<u8>, usize)> {
    let sheet = read_form(&raw.bytes(), which).ok()?;
    let leaves: Vec<usize> =
        (0..sheet.tokens.len()).filter(|token| (1..=9).contains(&sheet.kind(*token))).collect();
    if leaves.is_empty() {
        return None;
    }
    let leaf = *rng.pick(&leaves);
    let links = (MAX_DEPTH + 1 - sheet.tokens[leaf].depth) as usize;
    let mut raw = raw.clone();
    let chain = vec![*rng.pick(&[(18, 0), (19, 0), (13, 1), (25, 0)]); links];
    raw.tokens.splice(leaf..leaf, chain);
    if raw.tokens.len() > MAX_TOKENS as usize {
        return None;
    }
    Some((raw.bytes(), leaf + links))
}

/// Tokens cut off, or a count far beyond them.
fn run_out(raw: &Raw, rng: &mut Rng) -> Option<(Vec<u8>, usize)> {
    let mut raw = raw.clone();
    if rng.chance(30) {
        raw.tokens[0].1 = *rng.pick(&[raw.tokens[0].1 + 1, 0x8000_0001, u32::MAX]);
    } else {
        let kept = 1 + rng.below(raw.tokens.len() - 1);
        if kept == raw.tokens.len() {
            return None;
        }
        raw.tokens.truncate(kept);
    }
    let place = raw.tokens.len();
    Some((raw.bytes(), place))
}

fn left_over(raw: &Raw, rng: &mut Rng) -> Option<(Vec<u8>, usize)> {
    let mut raw = raw.clone();
    let place = raw.tokens.len();
    for _ in 0..=rng.below(4) {
        raw.tokens.push((rng.draw() as u8, rng.draw() as u32));
    }
    (raw.tokens.len() <= MAX_TOKENS as usize).then(|| (raw.bytes(), place))
}

/// A declaration appended whose text an earlier one has, under a number of
/// its own; more of the kind, and faults of a later kind, may follow it.
fn declared_again(raw: &Raw, number: u32, rng: &mut Rng) -> Option<(Vec<u8>, usize)> {
    let kind = 91 + number as u8;
    let sheet = read_form(&raw.bytes(), Which::Schema).ok()?;
    let mut texts: Vec<&str> = Vec::new();
    for token in sheet.kids_of_kind(0, kind) {
        texts.push(sheet.text(sheet.kids(token)[0]));
    }
    if texts.is_empty() {
        return None;
    }
    let text = *rng.pick(&texts);
    let mut more = vec![declaration(kind, text)];
    more.extend(texts.iter().filter(|_| rng.chance(50)).map(|other| declaration(kind, other)));
    for later in kind + 1..=103 {
        if rng.chance(40) {
            more.extend([declaration(later, text), declaration(later, text)]);
        }
    }
    if rng.chance(40) {
        more.push(Tree::new(106, 0, vec![Tree::name(text), Tree::name(text)]));
    }
    appended(raw, &more)
}

/// A Label, RelType or Parameter with nothing but its name and, if it has one,
/// its type.
pub fn declaration(kind: u8, text: &str) -> Tree {
    let mut kids = vec![Tree::name(text)];
    if kind == 103 {
        kids.push(Tree::leaf(121, 0));
    }
    Tree::new(kind, 0, kids)
}

fn apart_of_equals(raw: &Raw, rng: &mut Rng) -> Option<(Vec<u8>, usize)> {
    let text = *rng.pick(&["A", "", "é"]);
    appended(raw, &[Tree::new(106, 0, vec![Tree::name(text), Tree::name(text)])])
}

/// Declarations appended, each name under a new number; the place is that of
/// the first.
fn appended(raw: &Raw, more: &[Tree]) -> Option<(Vec<u8>, usize)> {
    let mut raw = raw.clone();
    let place = raw.tokens.len();
    for tree in more {
        tree.write(&mut raw, &mut |names, text| {
            names.push(text.as_bytes().to_vec());
            names.len() - 1
        });
    }
    raw.tokens[0].1 += more.len() as u32;
    let fits = raw.tokens.len() <= MAX_TOKENS as usize && raw.names.len() <= MAX_NAMES as usize;
    fits.then(|| (raw.bytes(), place))
}
