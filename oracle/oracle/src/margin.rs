//! The margin list of document 02: the check's items by where they stand in
//! the text.

use crate::items::Item;

/// What the margin list goes by, the first key first.
const KEYS: [fn(&Item) -> u32; 1] = [|item| item.start];

/// A check's items in the margin list's order; those that no key tells apart
/// stay in the check's.
pub fn in_margin(items: &[Item]) -> Vec<Item> {
    let mut margin = items.to_vec();
    margin.sort_by_key(|item| KEYS.map(|key| key(item)));
    margin
}
