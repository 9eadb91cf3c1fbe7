//! Document 01, "Papers already marked": every case there, and the readings'
//! numbers. Sheets are written in the plain notation.

use oracle::answers::*;
use oracle::items::ITEM_WIDTH;
use oracle::notation::encode;
use oracle::sample::worked_example;
use oracle::sheet::Refusal;

const LONG: usize = 100_000;

fn sheet(text: &str) -> Vec<u8> {
    encode(text).expect("a notation")
}

fn refused(number: u32, sheet: u32, place: u32) -> Refusal {
    Refusal { number, sheet, place }
}

fn codes(statement: &str, schema: &str) -> Vec<u32> {
    let items = check(&sheet(statement), &sheet(schema), LONG).expect("accepted");
    items.iter().map(|item| item.code).collect()
}

/// One node or rel with names and perhaps properties under a clause.
fn element(clause: &str, kind: &str, names: &[&str], properties: Option<&str>) -> String {
    let value = 2 * names.len() + usize::from(properties.is_some());
    let names: String = names.iter().map(|name| format!("name \"{name}\"\n")).collect();
    let properties = properties.unwrap_or("");
    format!(
        "Statement 1\n{clause}\nPattern 1\nPart 1\n{kind} {value}\nNumber 1\nNumber 9\n\
         {names}{properties}"
    )
}

const A_AND_B_APART: &str =
    "Schema 3\nLabel 0\nname \"A\"\nLabel 0\nname \"B\"\nApart\nname \"B\"\nname \"A\"";

#[test]
fn statement_with_no_clause() {
    let empty = sheet("Statement 0");
    assert_eq!(empty.len(), 17);
    assert_eq!(check(&empty, &sheet("Schema 0"), 0), Ok(vec![]));
}

#[test]
fn short_and_empty_frames() {
    let empty = sheet("Statement 0");
    assert_eq!(read_statement(&empty[..11]), Err(refused(1, 1, 0)));
    let mut no_token = empty.clone();
    no_token[0] = 0;
    assert_eq!(read_statement(&no_token), Err(refused(2, 1, 0)));
}

#[test]
fn token_limit() {
    let statement = |count: usize| {
        sheet(&format!("Statement 1\nReturn {}\n{}", count - 2, "Null\n".repeat(count - 2)))
    };
    assert_eq!(read_statement(&statement(4_096)), Ok(0));
    assert_eq!(read_statement(&statement(4_097)), Err(refused(2, 1, 0)));
}

#[test]
fn labels_apart() {
    let found = |clause| codes(&element(clause, "Node", &["A", "B"], None), A_AND_B_APART);
    assert_eq!(found("Match"), []);
    assert_eq!(found("Create"), [4023]);
    assert_eq!(found("Merge"), [4023]);
    let set = |names: &str, n: u32| {
        codes(&format!("Statement 1\nSet 1\nSetLabels {n}\n{names}"), A_AND_B_APART)
    };
    assert_eq!(set("name \"Zzz\"", 1), []);
    assert_eq!(set("name \"A\"\nname \"B\"", 2), [4023]);
}

#[test]
fn tuples_back_merge_keys() {
    let schema = |items: &str, count: u32| format!("Schema 1\nLabel {count}\nname \"A\"\n{items}");
    let merge = element("Merge", "Node", &["A"], Some("Map 0"));
    assert_eq!(codes(&merge, &schema("Tuple 0", 1)), []);
    assert_eq!(codes(&merge, &schema("Tuple 1\nname \"site\"", 1)), [3009]);
    assert_eq!(codes(&merge, &schema("", 0)), []);
}

#[test]
fn literal_types() {
    let found = |value: &str, declared: &str| {
        let properties = format!("Map 1\nname \"p\"\n{value}");
        let schema = format!("Schema 1\nLabel 1\nname \"A\"\nProperty 0\nname \"p\"\n{declared}");
        codes(&element("Match", "Node", &["A"], Some(&properties)), &schema)
    };
    assert_eq!(found("Int", "TypeFloat"), [3004]);
    assert_eq!(found("List 0", "TypeInt 1"), []);
    assert_eq!(found("List 1\nList 1\nInt", "TypeInt 1"), [3004]);
    assert_eq!(found("List 2\nVar\nInt", "TypeInt"), []);
    // T-07
    assert_eq!(found("List 0", "TypeInt"), [3004]);
    assert_eq!(found("List 1\nInt", "TypeInt"), [3004]);
    assert_eq!(found("Int", "TypeInt 1"), [3004]);
    assert_eq!(found("Null", "TypeInt 1"), []);
    assert_eq!(found("List 1\nInt", "TypeAny"), []);
    assert_eq!(found("List 0", "TypeInt 2"), []);
    assert_eq!(found("List 1\nList 1\nInt", "TypeAny 1"), []);
    assert_eq!(found("List 1\nNull", "TypeInt 1"), []);
}

#[test]
fn variadic_arguments() {
    let schema = "Schema 1\nFunction 5\nname \"f\"";
    let call = |count: usize| {
        format!("Statement 1\nWhere\nCall {count}\nname \"f\"\n{}", "Var\n".repeat(count))
    };
    assert_eq!(codes(&call(2), schema), []);
    assert_eq!(codes(&call(1), schema), [3007]);
    let text = message(&sheet(&call(1)), &sheet(schema), 0, LONG).unwrap();
    assert_eq!(text, b"function `f` expects at least 2 argument(s) but got 1");
}

#[test]
fn depth_limit() {
    let deep =
        |depth: usize| sheet(&format!("Statement 1\nWhere\n{}Int", "IsNull\n".repeat(depth - 2)));
    assert_eq!(read_statement(&deep(64)), Ok(0));
    assert_eq!(read_statement(&deep(65)), Err(refused(7, 1, 65)));
}

#[test]
fn worked_example_items_and_places() {
    let (statement, schema) = worked_example();
    assert_eq!((statement.len(), schema.len()), (104, 107));
    assert_eq!(read_statement(&statement), Ok(0));
    assert_eq!(read_schema(&schema), Ok(0));
    let items = check(&statement, &schema, 2 * ITEM_WIDTH).unwrap();
    assert_eq!(items[0].numbers(), [3004, 6, 37, 4, 2, 1, 0]);
    assert_eq!(items[1].numbers(), [3009, 6, 37, 4, 3, 0, 0]);
    assert_eq!(check(&statement, &schema, 2 * ITEM_WIDTH - 1), Err(refused(14, 0, 0)));
    assert_eq!(message(&statement, &schema, 2, LONG), Err(refused(15, 0, 0)));
    let length = message(&statement, &schema, 0, LONG).unwrap().len();
    assert!(message(&statement, &schema, 0, length).is_ok());
    assert_eq!(message(&statement, &schema, 0, length - 1), Err(refused(16, 0, 0)));
}

#[test]
fn worked_example_prints_three_lines() {
    let (statement, schema) = worked_example();
    let expected = "E3004 6 37 4 property `green` expects type `Int` but got `String`\n\
        E3009 6 37 4 MERGE key {green, stage} on label(s) :Phase is not backed by a declared \
        uniqueness constraint\n2 listed\n";
    assert_eq!(String::from_utf8(printed(&statement, &schema)).unwrap(), expected);
    assert_eq!(printed(&[], &schema), b"refused 1 1 0\n");
    assert_eq!(printed(&statement, &[]), b"refused 1 2 0\n");
    assert_eq!(printed(&sheet("Statement 0"), &schema), b"0 listed\n");
}

#[test]
fn program_limits() {
    let names = |count: usize| vec!["Zzz"; count];
    let many = |count| sheet(&element("Match", "Node", &names(count), None));
    let lines = |count| {
        let text = String::from_utf8(printed(&many(count), &sheet("Schema 0"))).unwrap();
        text.lines().last().unwrap().to_owned()
    };
    assert_eq!(lines(512), "512 listed");
    assert_eq!(lines(513), "refused 14 0 0");
    let call = |length: usize| {
        let name = "n".repeat(length - "unknown function ``".len());
        let statement = sheet(&format!("Statement 1\nWhere\nCall 0\nname \"{name}\""));
        String::from_utf8(printed(&statement, &sheet("Schema 0"))).unwrap()
    };
    assert!(call(16_384).starts_with("E3006 0 0 2 unknown function `n"));
    assert_eq!(call(16_385), "E3006 0 0 2 refused 16\n1 listed\n");
}

fn hex(text: &str) -> Vec<u8> {
    let digits: Vec<u8> = text.bytes().filter(|byte| *byte != b' ').collect();
    let pair = |two: &[u8]| u8::from_str_radix(std::str::from_utf8(two).unwrap(), 16).unwrap();
    digits.chunks(2).map(pair).collect()
}

#[test]
fn digests_of_the_readings() {
    let expected = "0594701a 4e7e082a 25824a38 0da7bf84 159241a5 9c0653df c20a49a0 524e03a9";
    assert_eq!(schema_digest(&worked_example().1).unwrap().to_vec(), hex(expected));
    let empty = "25e5fc53 ce241044 2392727e 29e79208 2211c9b9 bf9473c9 84118864 5c5fca39";
    assert_eq!(schema_digest(&sheet("Schema 0")).unwrap().to_vec(), hex(empty));
}

#[test]
fn published_fnv_vectors() {
    use oracle::store_answers::{FNV_START, fnv1a};
    assert_eq!(fnv1a(FNV_START, b""), 0xcbf2_9ce4_8422_2325);
    assert_eq!(fnv1a(FNV_START, b"a"), 0xaf63_dc4c_8601_ec8c);
    assert_eq!(fnv1a(FNV_START, b"foobar"), 0x8594_4171_f739_67e8);
}
