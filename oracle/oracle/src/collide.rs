//! Names that a hash does not tell apart, which a hostile sheet would have.
//! The hash begins with the length and takes eight bytes a step, as two
//! numbers (`mixed`) in which the case of letters is left out (`number`); of it
//! a table takes `chain_of`. For another hash these are changed, with
//! `one_hash`, which finds steps that lead to one hash.

const FIRST: u64 = 668_265_263;
const SECOND: u64 = 1_013_904_223;

/// Bytes of a step.
const STEP: usize = 8;

/// The bit of a byte in which the cases of a letter differ.
const CASE: u8 = 0x20;

/// A number of four bytes without these bits.
const MASK: u32 = !u32::from_le_bytes([CASE; 4]);

/// The hash with one step more.
fn mixed(hash: u32, low: u32, high: u32) -> u32 {
    let sum = (u64::from(hash) + u64::from(low)) * FIRST + u64::from(high) * SECOND;
    ((sum >> 32) as u32).wrapping_add(sum as u32)
}

/// The chain that a name of that hash stands in.
fn chain_of(hash: u32) -> u32 {
    hash & 1_023
}

/// What all names begin with: they have 32 bytes, so that 1,024 have room.
const COMMON: &str = "junction_of_a_timing_plan_";

/// No two of them are alike but for that bit.
const LETTERS: &[u8; 64] = b"abcdefghijklmnopqrstuvwxyz@[|]^_0123456789-.:;,+*/<=>?!#$%&()'\" ";

/// The `number`-th word of so many letters.
fn word<const N: usize>(number: usize) -> [u8; N] {
    std::array::from_fn(|i| LETTERS[number >> (6 * (N - 1 - i)) & 63])
}

fn number(bytes: &[u8]) -> u32 {
    u32::from_le_bytes(bytes.try_into().expect("four bytes")) & MASK
}

/// The hash after whole steps.
fn after(hash: u32, bytes: &[u8]) -> u32 {
    let step = |hash, step: &[u8]| mixed(hash, number(&step[..4]), number(&step[4..]));
    bytes.chunks_exact(STEP).fold(hash, step)
}

/// The length of every name, a number of whole steps: its hash begins with it.
const LENGTH: usize = 4 * STEP;

fn hash_of(name: &[u8]) -> u32 {
    assert_eq!(name.len(), LENGTH);
    after(LENGTH as u32, name)
}

fn text(bytes: &[u8]) -> &str {
    std::str::from_utf8(bytes).expect("letters")
}

/// So many different names that stand in one chain.
pub fn collide(n: usize) -> Vec<String> {
    let named = |word: [u8; 6]| format!("{COMMON}{}", text(&word));
    let chain = |name: &String| chain_of(hash_of(name.as_bytes()));
    let first = chain(&named(word::<6>(0)));
    let names = (0..1 << 36).map(|number| named(word::<6>(number)));
    names.filter(|name| chain(name) == first).take(n).collect()
}

/// So many different names of one hash, of which most pairs differ soon:
/// behind the first step each step leads to one hash in several ways.
pub fn collide_wholly(n: usize) -> Vec<String> {
    of_one_hash(n, 1, |_| true)
}

/// All steps but the last.
const FRONT: usize = LENGTH / STEP - 1;

/// So many different names of one hash that are alike up to the last step.
pub fn collide_late(n: usize) -> Vec<String> {
    of_one_hash(n, FRONT, |_| true)
}

/// The same of names whose last step is spelt in all cases of its letters, and
/// of `@[|]^`, which have another byte in the place of their case.
pub fn collide_in_case(n: usize) -> Vec<String> {
    let ways = 1 << STEP;
    let spelt = of_one_hash(n.div_ceil(ways), FRONT, |step| step.iter().all(has_case));
    let names = spelt.iter().flat_map(|name| (0..ways).map(move |cases| in_cases(name, cases)));
    names.take(n).collect()
}

/// A letter, or one of `@[|]^`; `_` is left out, whose case is no printed byte.
fn has_case(byte: &u8) -> bool {
    (b'@'..=b'~').contains(byte) && *byte != b'_'
}

/// A name with other case where a number has a bit, the last byte by the first.
fn in_cases(name: &str, cases: usize) -> String {
    let turned = |(i, byte): (usize, u8)| match cases >> i & 1 {
        0 => byte,
        _ => byte ^ CASE,
    };
    let mut bytes: Vec<u8> = name.bytes().rev().enumerate().map(turned).collect();
    bytes.reverse();
    text(&bytes).to_owned()
}

/// So many different names of one hash that have so many steps in common: each
/// other step, of those that are taken, leads to one hash in several ways, and
/// all ways of all steps are gone.
fn of_one_hash(n: usize, common: usize, is_taken: fn(&[u8]) -> bool) -> Vec<String> {
    let others = LENGTH / STEP - common;
    let ways = (1..).find(|ways: &usize| ways.pow(others as u32) >= n).expect("a root");
    let mut names = vec![COMMON[..common * STEP].to_owned()];
    let mut hash = after(LENGTH as u32, names[0].as_bytes());
    for _ in 0..others {
        let steps = one_hash(hash, ways, is_taken);
        hash = after(hash, &steps[0]);
        let longer = |name: &String| {
            steps.iter().map(|step| format!("{name}{}", text(step))).collect::<Vec<_>>()
        };
        names = names.iter().flat_map(longer).collect();
    }
    names.truncate(n);
    names
}

/// So many steps that lead from a hash to one and the same. Modulo 2^32 - 1 a
/// hash is the sum of what its two numbers bring, so the first number of each
/// is looked up by what the second leaves of it.
fn one_hash(from: u32, ways: usize, is_taken: fn(&[u8]) -> bool) -> Vec<Vec<u8>> {
    const MODULUS: u64 = (1 << 32) - 1;
    let to = after(from, b"a_middle");
    let place = |rest: u64| (rest >> 12) as usize;
    let mut fronts = vec![None; 1 << 20];
    for front in (0..1 << 20).map(word::<4>) {
        let brought = (u64::from(from) + u64::from(number(&front))) * FIRST % MODULUS;
        fronts[place(brought)] = Some(front);
    }
    let whole = |end: [u8; 4]| {
        let brought = u64::from(number(&end)) * SECOND % MODULUS;
        let front = fronts[place((u64::from(to) + MODULUS - brought) % MODULUS)]?;
        let step = [&front[..], &end].concat();
        (after(from, &step) == to && is_taken(&step)).then_some(step)
    };
    (0..1 << 24).map(word::<4>).filter_map(whole).take(ways).collect()
}

#[cfg(test)]
mod tests {
    use super::*;
    use std::collections::BTreeSet;

    fn hash(name: &str) -> u32 {
        hash_of(name.as_bytes())
    }

    fn distinct<T: Ord>(of: impl Iterator<Item = T>) -> usize {
        of.collect::<BTreeSet<T>>().len()
    }

    #[test]
    fn a_step_is_not_lost() {
        assert_ne!(after(32, b"abcdefgh"), after(32, b"abcdefgi"));
        assert_ne!(after(32, b"abcdefgh"), after(32, b"efghabcd"));
    }

    #[test]
    fn names_of_one_chain() {
        let names = collide(2_000);
        assert_eq!(distinct(names.iter()), 2_000);
        assert_eq!(distinct(names.iter().map(|name| chain_of(hash(name)))), 1);
        assert!(distinct(names.iter().map(|name| hash(name))) > 1);
        assert!(names.iter().all(|name| name.len() == 32));
    }

    #[test]
    fn names_of_one_hash() {
        for names in [collide_wholly(2_048), collide_late(2_048)] {
            assert_eq!(distinct(names.iter().map(|name| name.to_ascii_lowercase())), 2_048);
            assert_eq!(distinct(names.iter().map(|name| hash(name))), 1);
            assert!(names.iter().all(|name| name.len() == 32));
        }
    }

    #[test]
    fn no_two_letters_are_alike_but_for_case() {
        assert_eq!(distinct(LETTERS.iter().map(|letter| letter & !CASE)), LETTERS.len());
    }

    #[test]
    fn the_hash_leaves_the_case_out_and_nothing_else() {
        let hashes = [b"abcd[@|^", b"AbCd{`|~"].map(|step| after(32, step));
        assert_eq!(hashes[0], hashes[1]);
        assert_ne!(after(32, b"abcdefgh"), after(32, b"abcdefg("));
        assert_ne!(after(32, b"abcdefgh"), after(32, "abcdefé".as_bytes()));
        assert_eq!(after(32, "abcdefÉ".as_bytes()), after(32, "ABCDEFé".as_bytes()));
    }

    #[test]
    fn names_in_cases_are_of_one_hash_and_some_of_one_folding() {
        let names = collide_in_case(2_048);
        assert_eq!(distinct(names.iter()), 2_048);
        assert_eq!(distinct(names.iter().map(|name| hash(name))), 1);
        assert_eq!(distinct(names.iter().map(|name| &name[..24])), 1);
        let folded = distinct(names.iter().map(|name| name.to_ascii_lowercase()));
        assert!(folded > 8 && folded < 1_024, "{folded}");
    }

    #[test]
    fn late_names_are_alike_up_to_the_last_step() {
        assert_eq!(distinct(collide_late(2_048).iter().map(|name| &name[..24])), 1);
        assert!(distinct(collide_wholly(2_048).iter().map(|name| &name[8..16])) > 1);
    }
}
