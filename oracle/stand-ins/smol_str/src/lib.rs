//! Stand-in for the crate `smol_str`: it is in no listed source and no
//! registry is at hand. The published code uses `SmolStr` as an owned text
//! that compares, orders, hashes and prints as `str` does; this is that. As
//! in the published crate 24 bytes hold a text of up to 23 in place, and a
//! longer one is a counted pointer, so that clones cost what they cost there.

use std::borrow::Borrow;
use std::cmp::Ordering;
use std::fmt;
use std::hash::{Hash, Hasher};
use std::num::NonZeroU8;
use std::ops::Deref;
use std::sync::Arc;

/// The longest text that is held in place, in bytes.
const IN_PLACE: usize = 23;

#[derive(Clone)]
pub struct SmolStr(Form);

/// 24 bytes: what tells the two apart is the 0 that `length` never is.
#[derive(Clone)]
enum Form {
    InPlace(Short),
    Counted(Arc<str>),
}

/// A text of up to 23 bytes; `length` has one more than there are.
#[derive(Clone, Copy)]
struct Short {
    length: NonZeroU8,
    bytes: [u8; IN_PLACE],
}

impl Short {
    #[inline]
    fn new(text: &str) -> Option<Self> {
        let mut bytes = [0; IN_PLACE];
        bytes.get_mut(..text.len())?.copy_from_slice(text.as_bytes());
        Some(Short { length: NonZeroU8::MIN.saturating_add(text.len() as u8), bytes })
    }

    #[inline]
    fn as_str(&self) -> &str {
        let text = &self.bytes[..usize::from(self.length.get()) - 1];
        // SAFETY: `new`, which alone makes a `Short`, copied a whole `str` of
        // this length here, and nothing changes it.
        unsafe { std::str::from_utf8_unchecked(text) }
    }
}

impl SmolStr {
    #[inline]
    pub fn new(text: &str) -> Self {
        SmolStr(Short::new(text).map_or_else(|| Form::Counted(Arc::from(text)), Form::InPlace))
    }

    #[inline]
    pub fn as_str(&self) -> &str {
        match &self.0 {
            Form::InPlace(short) => short.as_str(),
            Form::Counted(text) => text,
        }
    }
}

impl Deref for SmolStr {
    type Target = str;

    #[inline]
    fn deref(&self) -> &str {
        self.as_str()
    }
}

impl Borrow<str> for SmolStr {
    #[inline]
    fn borrow(&self) -> &str {
        self.as_str()
    }
}

impl From<&str> for SmolStr {
    fn from(text: &str) -> Self {
        SmolStr::new(text)
    }
}

impl PartialEq for SmolStr {
    #[inline]
    fn eq(&self, other: &SmolStr) -> bool {
        self.as_str() == other.as_str()
    }
}

impl Eq for SmolStr {}

impl PartialEq<str> for SmolStr {
    #[inline]
    fn eq(&self, other: &str) -> bool {
        self.as_str() == other
    }
}

impl PartialOrd for SmolStr {
    #[inline]
    fn partial_cmp(&self, other: &SmolStr) -> Option<Ordering> {
        Some(self.cmp(other))
    }
}

impl Ord for SmolStr {
    #[inline]
    fn cmp(&self, other: &SmolStr) -> Ordering {
        self.as_str().cmp(other.as_str())
    }
}

impl Hash for SmolStr {
    #[inline]
    fn hash<H: Hasher>(&self, state: &mut H) {
        self.as_str().hash(state);
    }
}

impl fmt::Display for SmolStr {
    fn fmt(&self, f: &mut fmt::Formatter<'_>) -> fmt::Result {
        self.as_str().fmt(f)
    }
}

impl fmt::Debug for SmolStr {
    fn fmt(&self, f: &mut fmt::Formatter<'_>) -> fmt::Result {
        fmt::Debug::fmt(self.as_str(), f)
    }
}

#[cfg(test)]
mod tests {
    use super::*;

    #[test]
    fn it_takes_24_bytes() {
        assert_eq!(size_of::<SmolStr>(), 24);
    }

    #[test]
    fn texts_of_every_length_come_back_and_compare_as_str() {
        let text = "aé\u{10FFFF}".repeat(9);
        let all: Vec<&str> = (0..text.len()).filter_map(|end| text.get(..end)).collect();
        for one in &all {
            let held = SmolStr::new(one);
            assert_eq!(matches!(held.0, Form::InPlace(_)), one.len() <= IN_PLACE);
            assert_eq!((held.as_str(), format!("{held:?}")), (*one, format!("{one:?}")));
            for other in &all {
                let other_held = SmolStr::new(other).clone();
                assert_eq!(held.cmp(&other_held), one.cmp(other));
                assert_eq!(held == other_held, one == other);
            }
        }
    }
}
