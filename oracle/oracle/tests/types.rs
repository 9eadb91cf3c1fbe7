//! 01's table of 15 by 9, entry by entry against the Rust's own helpers.

use cyrs_schema::PropertyType;
use cyrs_sema::helpers::{ask_names, ask_types_compatible};
use cyrs_sema::ty::Type;
use oracle::items::{DECLARED, Listed, compatible};

fn inferred() -> Vec<Type> {
    vec![
        Type::Any,
        Type::Null,
        Type::Bool,
        Type::Int,
        Type::Float,
        Type::Num,
        Type::String,
        Type::Date,
        Type::Datetime,
        Type::Map(Default::default()),
        Type::Node(None),
        Type::Relationship(None),
        Type::Path,
        Type::Union(vec![Type::Int, Type::Float]),
        Type::Unknown,
    ]
}

fn declared() -> Vec<PropertyType> {
    vec![
        PropertyType::String,
        PropertyType::Int,
        PropertyType::Float,
        PropertyType::Bool,
        PropertyType::Date,
        PropertyType::Datetime,
        PropertyType::Enum("e".into(), vec![]),
        PropertyType::Opaque("o".into()),
        PropertyType::Any,
    ]
}

fn lists_of<T>(base: T, count: u32, list: impl Fn(Box<T>) -> T) -> T {
    (0..count).fold(base, |inner, _| list(Box::new(inner)))
}

#[test]
fn t_06_of_135_entries_71_pass() {
    let mut passing = 0;
    for one in &inferred() {
        for other in &declared() {
            passing += u32::from(ask_types_compatible(one, other));
        }
    }
    assert_eq!(passing, 71);
}

#[test]
fn t_04_the_table_with_lists_is_the_rusts() {
    for one in inferred() {
        for (i, other) in declared().into_iter().enumerate() {
            let (word, declared_word) = ask_names(&one, &other);
            assert_eq!(declared_word, DECLARED[i]);
            for (a, b) in (0..4).flat_map(|a| (0..4).map(move |b| (a, b))) {
                let ours = compatible(
                    Listed { base: word, lists: a },
                    Listed { base: declared_word, lists: b },
                );
                let one = lists_of(one.clone(), a, Type::List);
                let other = lists_of(other.clone(), b, PropertyType::List);
                assert_eq!(ours, ask_types_compatible(&one, &other), "{one:?} {other:?}");
            }
        }
    }
}
