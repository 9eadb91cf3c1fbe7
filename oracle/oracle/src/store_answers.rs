//! Document 01, section 7: names in order, endpoints and digest, by loops
//! over the schema sheet's tokens.

use crate::items::declaration;
use crate::sheet::Sheet;

/// Names of all declarations of a kind, sorted, as name numbers.
pub fn sorted_names(schema: &Sheet, kind: u8) -> Vec<u32> {
    let names = sorted(schema, kind).into_iter().map(|token| schema.kids(token)[0]);
    names.map(|name| schema.value(name)).collect()
}

/// Declarations of a kind, sorted by name.
fn sorted(schema: &Sheet, kind: u8) -> Vec<usize> {
    let mut tokens = schema.kids_of_kind(0, kind);
    tokens.sort_by_key(|token| schema.text(schema.kids(*token)[0]).as_bytes());
    tokens
}

/// Pairs of Start and End name numbers, start-major.
pub fn endpoints(schema: &Sheet, text: &[u8]) -> Vec<[u32; 2]> {
    let text = std::str::from_utf8(text).ok();
    let Some(token) = text.and_then(|name| declaration(schema, 102, name)) else {
        return Vec::new();
    };
    let side = |kind: u8| {
        let items = schema.kids_of_kind(token, kind).into_iter();
        items.map(|item| schema.value(schema.kids(item)[0])).collect::<Vec<u32>>()
    };
    let (starts, ends) = (side(112), side(113));
    starts.iter().flat_map(|start| ends.iter().map(|end| [*start, *end])).collect()
}

/// The published FNV-1a, 64 bits.
pub fn fnv1a(hash: u64, bytes: &[u8]) -> u64 {
    bytes.iter().fold(hash, |hash, byte| (hash ^ u64::from(*byte)).wrapping_mul(FNV_PRIME))
}

pub const FNV_START: u64 = 14_695_981_039_346_656_037;
const FNV_PRIME: u64 = 1_099_511_628_211;

/// The 32 bytes of `schema_digest`.
pub fn digest(schema: &Sheet) -> [u8; 32] {
    let hash = fnv1a(FNV_START, fed(schema).as_bytes());
    std::array::from_fn(|i| hash.rotate_left(7 * i as u32 % 64) as u8)
}

/// All that feeds the hash, one after the other.
fn fed(schema: &Sheet) -> String {
    let mut fed = String::new();
    let first = |token: usize| schema.text(schema.kids(token)[0]);
    for label in sorted(schema, 101) {
        fed += &format!("L:{}", first(label));
        for item in schema.kids_of_kind(label, 110) {
            let mark = if schema.value(item) == 1 { "!" } else { "?" };
            fed += &format!("p:{}{mark}", first(item));
        }
    }
    for rel_type in sorted(schema, 102) {
        fed += &format!("R:{}", first(rel_type));
        for (kind, mark) in [(112, "s:"), (113, "e:"), (110, "p:")] {
            for item in schema.kids_of_kind(rel_type, kind) {
                fed += &format!("{mark}{}", first(item));
            }
        }
    }
    for parameter in sorted(schema, 103) {
        fed += &format!("P:{}", first(parameter));
        if let Some(default) = schema.kids(parameter).get(2) {
            fed += &format!("={}", schema.text(*default));
        }
    }
    fed
}
