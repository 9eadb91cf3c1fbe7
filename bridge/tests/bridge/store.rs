//! Digest, names in order and endpoints of an encoded schema, and the texts of name numbers.
use crate::support::{example, property, texts};
use nurbellat::encode::*;
use nurbellat::*;

fn label(name: &str, items: Vec<LabelItem>) -> Declaration {
    Declaration::Label { name: name.into(), items }
}

fn parameter(name: &str, default: Option<&str>) -> Declaration {
    let default = default.map(str::to_string);
    Declaration::Parameter { name: name.into(), ty: BaseType::Date.into(), default }
}

/// Every kind of declaration, none in order.
fn mixed() -> Vec<u8> {
    let plan = vec![
        RelTypeItem::End("ab".into()),
        RelTypeItem::Property(property("since", BaseType::Date, true)),
        RelTypeItem::Start("é".into()),
        RelTypeItem::Tuple(texts(&["since"])),
        RelTypeItem::Start("a".into()),
        RelTypeItem::End("é".into()),
    ];
    let green = LabelItem::Property(property("green", BaseType::Int, true));
    let stage = LabelItem::Property(property("stage", BaseType::Int, false));
    let declarations = vec![
        parameter("y", None),
        Declaration::RelType { name: "PLAN".into(), items: plan },
        label("é", vec![]),
        Declaration::Function { name: "f".into(), parameters: 2, variadic: true },
        label("ab", vec![LabelItem::Tuple(vec![]), green, stage]),
        Declaration::RelType { name: "AT".into(), items: vec![RelTypeItem::End("a".into())] },
        Declaration::Apart("a".into(), "ab".into()),
        parameter("x", Some("now")),
        label("a", vec![]),
        Declaration::Procedure { name: "p".into(), parameters: 1 },
    ];
    encode_schema(&Schema { declarations }).expect("a small schema")
}

/// The published FNV-1a of what feeds it, spread over 32 bytes.
fn digest(fed: &str) -> [u8; 32] {
    let step = |hash: u64, byte: u8| (hash ^ u64::from(byte)).wrapping_mul(0x100_0000_01b3);
    let hash = fed.bytes().fold(0xcbf2_9ce4_8422_2325, step);
    std::array::from_fn(|i| hash.rotate_left(7 * i as u32 % 64) as u8)
}

#[test]
fn digests() {
    let fed = "L:aL:abp:green!p:stage?L:éR:ATe:aR:PLANs:és:ae:abe:ép:sinceP:x=nowP:y";
    assert_eq!(schema_digest(&mixed()), Ok(digest(fed)));
    assert_eq!(schema_digest(&example().1), Ok(digest("L:Phasep:stage?p:green?")));
    let empty = encode_schema(&Schema::default()).expect("no declaration");
    assert_eq!(schema_digest(&empty), Ok(digest("")));
}

#[test]
fn names_in_order() {
    let schema = mixed();
    assert_eq!(labels(&schema), Ok(vec!["a", "ab", "é"]));
    assert_eq!(rel_types(&schema), Ok(vec!["AT", "PLAN"]));
    assert_eq!(parameters(&schema), Ok(vec!["x", "y"]));
}

#[test]
fn endpoints_start_major() {
    let schema = mixed();
    let pairs = vec![("é", "ab"), ("é", "é"), ("a", "ab"), ("a", "é")];
    assert_eq!(endpoints(&schema, "PLAN"), Ok(pairs));
    assert_eq!(endpoints(&schema, "AT"), Ok(vec![]));
    assert_eq!(endpoints(&schema, "a"), Ok(vec![]));
}

#[test]
fn more_than_the_first_room() {
    let name = |i: usize| format!("{i:04}");
    let side = |i| [RelTypeItem::Start(name(i)), RelTypeItem::End(name(i))];
    let items = (0..30).flat_map(side).collect();
    let mut declarations: Vec<_> = (0..300).rev().map(|i| label(&name(i), vec![])).collect();
    declarations.push(Declaration::RelType { name: "R".into(), items });
    let schema = encode_schema(&Schema { declarations }).expect("within the limits");
    assert_eq!(labels(&schema).expect("accepted"), (0..300).map(name).collect::<Vec<_>>());
    let pairs = endpoints(&schema, "R").expect("accepted");
    assert_eq!(pairs.len(), 900);
    assert_eq!(
        (pairs[0], pairs[31], pairs[899]),
        (("0000", "0000"), ("0001", "0001"), ("0029", "0029"))
    );
}

#[test]
fn texts_of_name_numbers() {
    let (statement, schema) = example();
    let names = Names::of(&schema).expect("an accepted sheet");
    let found: Vec<_> = (0..5).map(|number| names.get(number)).collect();
    assert_eq!(found, [Some("Phase"), Some("stage"), Some("green"), Some("site"), None]);
    assert_eq!(names.get(u32::MAX), None);
    assert_eq!(Names::of(&statement).and_then(|names| names.get(2)), Some("green"));
}

#[test]
fn names_of_any_bytes() {
    let (_, schema) = example();
    // The text begins at 88: with less than that there is no place for the names.
    for length in 0..schema.len() {
        let names = Names::of(&schema[..length]);
        assert_eq!(names.is_some(), length >= 88);
        assert_eq!(names.and_then(|names| names.get(3)), None);
    }
    assert!(Names::of(&[0xff; 40]).is_none());
}
