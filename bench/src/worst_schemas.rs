//! The schemas that are worst for the store, each with what it strains.

use oracle::build::{declared, parameter, schema, side};
use oracle::collide;
use oracle::sheet::MAX_NAMES;
use oracle::tree::Tree;

use crate::worst_papers::declared_name;

/// The relationship type whose endpoints are asked for.
pub const REL_TYPE: &str = "LINKS";

/// Names that fall, as many as there may be.
fn falling() -> impl Iterator<Item = String> {
    (0..MAX_NAMES as usize).rev().map(declared_name)
}

/// Names in order, and the digest, which feeds labels in order.
pub fn labels() -> Tree {
    schema(falling().map(|name| declared(101, &name, Vec::new())).collect())
}

/// The same of parameters.
pub fn parameters() -> Tree {
    schema(falling().map(|name| parameter(&name)).collect())
}

/// As many pairs as a sheet can have: 1,046,529.
pub fn endpoints() -> Tree {
    let of = |kind: u8| falling().skip(1).map(move |name| side(kind, &name));
    schema(vec![declared(102, REL_TYPE, of(112).chain(of(113)).collect())])
}

/// A label and a relationship type of each name: all are held against the
/// earlier ones of their kind.
fn twice(names: Vec<String>) -> Tree {
    let of = |kind: u8| names.iter().map(move |name| declared(kind, name, Vec::new()));
    schema(of(101).chain(of(102)).collect())
}

/// No hash parts the names into chains.
pub fn colliding() -> Tree {
    twice(collide::collide(1_000))
}

/// Nor does the whole hash tell them apart.
pub fn colliding_wholly() -> Tree {
    twice(collide::collide_wholly(1_000))
}

/// And the texts are alike up to the last eight bytes.
pub fn colliding_late() -> Tree {
    twice(collide::collide_late(1_000))
}
