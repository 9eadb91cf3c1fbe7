//! Document 02's lookup of functions (request 2.5): A to Z stand for a to z,
//! every other byte for itself.

/// Whether two names are one to a lookup of functions.
pub fn same_folded(one: &str, other: &str) -> bool {
    one.bytes().map(lower).eq(other.bytes().map(lower))
}

/// A to Z as a to z.
fn lower(byte: u8) -> u8 {
    match byte {
        b'A'..=b'Z' => byte - b'A' + b'a',
        _ => byte,
    }
}

#[cfg(test)]
mod tests {
    use super::*;

    #[test]
    fn the_26_letters_and_no_other_byte() {
        for byte in 0..=0x7f_u8 {
            let lowered = if byte.is_ascii_uppercase() { byte | 0x20 } else { byte };
            assert_eq!(lower(byte), lowered);
        }
        for byte in 0x80..=0xff {
            assert_eq!(lower(byte), byte);
        }
    }

    #[test]
    fn names_that_are_one_and_names_that_are_not() {
        for (one, other) in [("COUNT", "count"), ("cOUNt", "CoUnT"), ("École", "ÉCOLE"), ("", "")]
        {
            assert!(same_folded(one, other) && same_folded(other, one));
        }
        let others =
            [("@", "`"), ("[", "{"), ("É", "é"), ("K", "\u{212a}"), ("a", "ab"), ("a", "")];
        for (one, other) in others {
            assert!(!same_folded(one, other) && !same_folded(other, one));
        }
    }
}
