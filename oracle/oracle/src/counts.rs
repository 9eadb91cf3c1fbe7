//! Counts by key, as the tallies keep them.

use std::collections::BTreeMap;
use std::fmt::Display;

use crate::sheet::Refusal;

/// How often each key came.
pub type Counts<K> = BTreeMap<K, u64>;

/// How often each refusal came, by number and sheet.
pub type Refusals = Counts<(u32, u32)>;

pub fn count_refusal(counts: &mut Refusals, refusal: Refusal) {
    *counts.entry((refusal.number, refusal.sheet)).or_default() += 1;
}

/// Adds what was counted elsewhere.
pub fn add<K: Copy + Ord>(counts: &mut Counts<K>, more: &Counts<K>) {
    for (key, count) in more {
        *counts.entry(*key).or_default() += count;
    }
}

/// A line of a report: each key in words, and its count.
pub fn line<K, W: Display>(title: &str, counts: &Counts<K>, word: impl Fn(&K) -> W) -> String {
    let counted = counts.iter().map(|(key, count)| format!(" {} {count}", word(key)));
    format!("\n{title}:{}", counted.collect::<String>())
}

/// The line of refusals.
pub fn refusal_line(counts: &Refusals) -> String {
    line("refusals (number/sheet)", counts, |(number, sheet)| format!("{number}/{sheet}"))
}
