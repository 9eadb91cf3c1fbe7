//! Memory as it is lent: filled with a pattern before, compared whole after,
//! with a margin on either side that no operation may touch.

use std::fmt::Debug;

/// What a place of memory holds.
pub trait Unit: Copy + PartialEq + Debug {
    fn of(drawn: u64) -> Self;
}

impl Unit for u8 {
    fn of(drawn: u64) -> Self {
        (drawn >> 56) as u8
    }
}

impl Unit for u32 {
    fn of(drawn: u64) -> Self {
        (drawn >> 32) as u32
    }
}

const MARGIN: usize = 16;

/// The pattern: what stands at a place, by a salt.
fn pattern<T: Unit>(salt: u64, place: usize) -> T {
    let mixed = salt.wrapping_add(place as u64).wrapping_mul(0x9e37_79b9_7f4a_7c15);
    T::of((mixed ^ (mixed >> 29)).wrapping_mul(0xbf58_476d_1ce4_e5b9))
}

/// So many places, somewhere in memory that has the pattern.
pub struct Lent<T> {
    memory: Vec<T>,
    start: usize,
    length: usize,
    salt: u64,
}

impl<T: Unit> Default for Lent<T> {
    fn default() -> Self {
        Lent { memory: Vec::new(), start: 0, length: 0, salt: 0 }
    }
}

impl<T: Unit> Lent<T> {
    /// Puts the pattern into `length` places and their margins. The start
    /// moves with the salt, so that bytes do not always stand aligned.
    pub fn fill(&mut self, length: usize, salt: u64) {
        self.start = MARGIN + (salt >> 61) as usize;
        self.length = length;
        self.salt = salt;
        self.memory.clear();
        let whole = self.start + length + MARGIN;
        self.memory.extend((0..whole).map(|place| pattern::<T>(salt, place)));
    }

    /// Lends `content`, within margins.
    pub fn hold(&mut self, content: &[T], salt: u64) {
        self.fill(content.len(), salt);
        self.places().copy_from_slice(content);
    }

    pub fn held(&self) -> &[T] {
        &self.memory[self.start..self.start + self.length]
    }

    pub fn places(&mut self) -> &mut [T] {
        &mut self.memory[self.start..self.start + self.length]
    }

    /// The margins and all between them.
    pub fn whole(&mut self) -> &mut [T] {
        &mut self.memory
    }

    /// What is wrong where `written` should stand first and all else have the
    /// pattern. Places are counted from the first one lent.
    pub fn fault(&self, written: &[T]) -> Option<String> {
        let end = self.start + written.len();
        if written.len() <= self.length
            && self.memory[self.start..end] == *written
            && self.has_pattern(0..self.start)
            && self.has_pattern(end..self.memory.len())
        {
            return None;
        }
        let wanted = |place: usize| match place.checked_sub(self.start) {
            Some(at) if at < written.len() => written[at],
            _ => pattern(self.salt, place),
        };
        let found = self.memory.iter().enumerate();
        let first = found.map(|(place, found)| (place, *found, wanted(place)));
        Some(match first.into_iter().find(|(_, found, wanted)| found != wanted) {
            Some((place, found, wanted)) => {
                let place = place as i64 - self.start as i64;
                format!("place {place} of {}: {found:?}, not {wanted:?}", self.length)
            }
            None => format!("{} places wanted of {}", written.len(), self.length),
        })
    }

    fn has_pattern(&self, places: std::ops::Range<usize>) -> bool {
        places.into_iter().all(|place| self.memory[place] == pattern(self.salt, place))
    }
}
