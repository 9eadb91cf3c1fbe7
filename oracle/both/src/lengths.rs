//! Which lengths are lent, which items and which texts are asked for. Of big
//! pairs only some: what always comes is where an answer turns.

use oracle::items::ITEM_WIDTH;
use oracle::rng::Rng;
use oracle::sheet::Sheet;

/// Bytes of both sheets up to which every length is lent.
const SMALL: usize = 1_500;

/// How much is asked of a pair.
#[derive(Clone, Copy)]
pub struct Room {
    /// Lengths beside those where the answer turns.
    more_lengths: usize,
    items: usize,
    texts: usize,
}

impl Room {
    pub fn of(bytes: usize) -> Self {
        match bytes {
            0..=SMALL => Room { more_lengths: usize::MAX, items: 16, texts: 6 },
            _ => Room { more_lengths: 2, items: 3, texts: 2 },
        }
    }
}

/// Takes out some at random until `most` are left; their order stays.
fn some<T>(mut of: Vec<T>, most: usize, rng: &mut Rng) -> Vec<T> {
    while of.len() > most {
        of.remove(rng.below(of.len()));
    }
    of
}

/// Lengths of a list for so many items.
pub fn of_list(items: usize, room: Room, rng: &mut Rng) -> Vec<usize> {
    let full = ITEM_WIDTH * items;
    let near = full.saturating_sub(ITEM_WIDTH + 1)..=full + ITEM_WIDTH + 1;
    let turns = full.saturating_sub(1)..=full;
    let first = [0, 1, ITEM_WIDTH - 1, ITEM_WIDTH];
    let others = first.into_iter().chain(near).filter(|length| !turns.contains(length));
    let mut lengths: Vec<usize> = others.collect();
    lengths.sort_unstable();
    lengths.dedup();
    lengths.push(full + 50 + rng.below(400));
    let mut lengths = some(lengths, room.more_lengths, rng);
    lengths.extend(turns);
    lengths
}

/// Lengths of a buffer for so many places: exactly full, one short, one
/// longer, none, in pairs where the answer comes in pairs.
pub fn of_buffer(full: usize, step: usize, rng: &mut Rng) -> Vec<usize> {
    let short = full.saturating_sub(1);
    let mut lengths = vec![0, full.saturating_sub(step), short, full, full + 1];
    lengths.push(full + 2 + rng.below(60));
    lengths.sort_unstable();
    lengths.dedup();
    lengths
}

/// The items whose messages are asked for: the first, the last, and some.
pub fn of_items(count: usize, room: Room, rng: &mut Rng) -> Vec<u32> {
    if count <= room.items {
        return (0..count as u32).collect();
    }
    let mut chosen = vec![0, count as u32 - 1];
    chosen.extend((2..room.items).map(|_| rng.below(count) as u32));
    chosen
}

/// Texts whose endpoints are asked for: RelTypes of the schema, one of them
/// cut, lengthened and in other case, an unknown text, an empty one, one not
/// UTF-8.
pub fn of_texts(schema: Option<&Sheet>, room: Room, rng: &mut Rng) -> Vec<Vec<u8>> {
    let mut texts: Vec<Vec<u8>> = Vec::new();
    if let Some(sheet) = schema {
        let first = |token: usize| sheet.text(sheet.kids(token)[0]).as_bytes().to_vec();
        let declared = sheet.kids_of_kind(0, 102).into_iter().map(first).collect();
        texts = some(declared, room.texts, rng);
    }
    if let Some(text) = texts.first().cloned() {
        texts.push(text[..text.len().saturating_sub(1)].to_vec());
        texts.push([&text[..], b"a"].concat());
        texts.push(text.iter().map(other_case).collect());
    }
    texts.extend([b"no such type".to_vec(), Vec::new(), b"\xc0\x80".to_vec()]);
    texts
}

/// A letter of the 26 in its other case.
fn other_case(byte: &u8) -> u8 {
    if byte.is_ascii_uppercase() { byte.to_ascii_lowercase() } else { byte.to_ascii_uppercase() }
}

/// Of a text up to this long every place is asked for.
const SHORT_TEXT: usize = 16;
/// Of a longer one so many.
const PLACES: usize = 6;

/// Places where a row is asked for: in a text, at its end, behind it.
pub fn of_places(length: usize, rng: &mut Rng) -> Vec<usize> {
    let mut places: Vec<usize> = match length {
        0..=SHORT_TEXT => (0..length).collect(),
        _ => (0..PLACES).map(|_| rng.below(length)).collect(),
    };
    places.extend([length, length + 1, usize::MAX]);
    places
}
