//! Readings S, G, B, W, M, D and R, one by one where a case shows them.

use oracle::answers::*;
use oracle::grammar::{Class, RULES, Values, rule_of};
use oracle::items::ITEM_WIDTH;
use oracle::notation::{encode, show};
use oracle::sheet::Refusal;

const LONG: usize = 1 << 24;

const NO_ITEM: [[u32; ITEM_WIDTH]; 0] = [];

fn sheet(text: &str) -> Vec<u8> {
    encode(text).expect("a notation")
}

fn statement_refusal(text: &str) -> (u32, u32) {
    let Refusal { number, place, .. } = read_statement(&sheet(text)).expect_err("a refusal");
    (number, place)
}

fn schema_refusal(text: &str) -> (u32, u32) {
    let Refusal { number, sheet: 2, place } = read_schema(&sheet(text)).expect_err("a refusal")
    else {
        panic!("not of the schema");
    };
    (number, place)
}

fn list(statement: &str, schema: &str) -> Vec<[u32; ITEM_WIDTH]> {
    let items = check(&sheet(statement), &sheet(schema), LONG).expect("accepted");
    items.iter().map(|item| item.numbers()).collect()
}

fn messages(statement: &str, schema: &str) -> Vec<String> {
    let (statement, schema) = (sheet(statement), sheet(schema));
    let count = check(&statement, &schema, LONG).expect("accepted").len();
    let text = |k| String::from_utf8(message(&statement, &schema, k, LONG).unwrap()).unwrap();
    (0..count).map(text).collect()
}

#[test]
fn g_02_kinds_whose_value_is_zero() {
    let zero = [
        1, 2, 3, 4, 5, 6, 7, 8, 9, 10, 11, 17, 18, 19, 21, 22, 27, 28, 29, 30, 70, 71, 72, 73, 76,
        80, 81, 83, 106, 112, 113,
    ];
    for rule in RULES {
        assert_eq!(rule.values == Values::Zero, zero.contains(&rule.kind), "{}", rule.kind);
    }
}

#[test]
fn g_every_class_names_kinds_of_the_table_and_no_kind_twice() {
    for (i, rule) in RULES.iter().enumerate() {
        assert!(RULES[..i].iter().all(|other| other.kind != rule.kind && other.word != rule.word));
        for class in rule.holds.iter().flat_map(|slot| slot.of) {
            assert!(class.kinds().iter().all(|kind| rule_of(*kind).is_some()));
        }
    }
    // 1-14, 16-30, 50-51, 60-63, 70-85, 90; 100-106, 110-113, 120-128.
    assert_eq!(RULES.len(), 14 + 15 + 2 + 4 + 16 + 1 + 7 + 4 + 9);
    assert_eq!(Class::Expr.kinds().len(), 25);
}

/// Every kind of the statement sheet, with all flags, as 01 lists them.
const EVERY_KIND: &str = r#"
Statement 11
  Match
    Pattern 1
      Part 2
        Node 3
          Number 1
          Number 1
          name "A"
          Map 1
            name "k"
            Prop
              name "p"
              Var
        Rel 1
          Number 0
          Number 4294967295
          Param
  Create
    Pattern 0
  Merge
    Pattern 0
  Where
    Slice 3
      Index
        Null
        Bool
      Int
      Float
  With 3
    Case 7
      String
      Unresolved
      ExistsSubqueryDeferred
      BinOp
        Null
        Null
    ListPredicate 1
      Null
      Null
  Return 2
    Call 1
      name "f"
      UnaryOp
        Null
    InList
      IsNull
        Null
      List 0
  Unwind
    ListComprehension 1
      Null
      Null
      Null
  Set 3
    SetProperty
      Null
      Null
    AssignMap
      PatternPredicate
        Pattern 0
    SetLabels 1
      name "A"
  Remove 2
    RemoveProperty
      PatternComprehension 1
        Pattern 0
        Null
        Null
    RemoveLabels 0
  Delete 1
    MapProjection 4
      Null
      Computed
        name "k"
        Null
      Aliased
        name "k"
        Null
      PropCopy
        name "k"
      VarShorthand
        name "k"
  CallClause 1
    Number 3
    Number 4
    name "p"
    Null
"#;

#[test]
fn g_every_kind_is_read_and_shown_again() {
    let bytes = sheet(EVERY_KIND);
    assert_eq!(read_statement(&bytes), Ok(0));
    assert_eq!(encode(&show(&bytes)), Ok(bytes));
}

#[test]
fn g_01_other_roots() {
    assert_eq!(statement_refusal("Schema 0"), (6, 0));
    assert_eq!(schema_refusal("Statement 0"), (6, 0));
}

#[test]
fn g_03_a_large_count_is_no_fault_of_its_own() {
    assert_eq!(statement_refusal("Statement 4294967295"), (8, 1));
    assert_eq!(statement_refusal("Statement 4294967295\nWhere\n15 0"), (6, 2));
    assert_eq!(statement_refusal("Statement 1\nWhere\nMap 2147483649\nname \"k\"\nNull"), (8, 5));
    assert_eq!(statement_refusal("Statement 1\nWhere\nCase 4294967292\nNull\nNull"), (8, 5));
}

#[test]
fn g_05_and_g_06_names_and_numbers() {
    assert_eq!(statement_refusal("Statement 1\nWhere\nProp\n50 0\nVar"), (6, 3));
    let call = "Statement 1\nCallClause 0\nNumber 5\nNumber 4\nname \"p\"";
    assert_eq!(statement_refusal(call), (6, 3));
    let swapped = "Statement 1\nCallClause 0\nname \"p\"\nNumber 5\nNumber 6";
    assert_eq!(statement_refusal(swapped), (6, 2));
}

#[test]
fn g_10_and_g_20_items_stand_nowhere_else() {
    assert_eq!(statement_refusal("Statement 1\nSet 1\nRemoveLabels 0"), (6, 2));
    assert_eq!(statement_refusal("Statement 1\nRemove 1\nSetLabels 0"), (6, 2));
    assert_eq!(statement_refusal("Statement 1\nWhere\nPropCopy\nname \"k\""), (6, 2));
    assert_eq!(schema_refusal("Schema 1\nLabel 1\nname \"A\"\nStartLabel\nname \"A\""), (6, 3));
}

#[test]
fn g_13_elements_in_any_mix() {
    let rels = "Statement 1\nMatch\nPattern 1\nPart 2\nRel 0\nNumber 0\nNumber 0\nRel 0\nNumber 0\nNumber 0";
    assert!(read_statement(&sheet(rels)).is_ok());
}

#[test]
fn r_04_a_character_split_over_two_names() {
    let mut bytes = sheet("Statement 1\nWhere\nCall 0\nname \"é\"");
    let ends = 12 + 5 * 4;
    bytes[4] = 2;
    bytes.splice(ends..ends + 4, [1, 0, 0, 0, 2, 0, 0, 0]);
    let refusal = Refusal { number: 5, sheet: 1, place: 0 };
    assert_eq!(read_statement(&bytes), Err(refusal));
}

#[test]
fn r_05_ends_come_before_bytes() {
    let mut bytes = sheet("Statement 1\nWhere\nProp\nname \"x\"\nCall 0\nname \"yy\"");
    let (first, last) = (12 + 5 * 6, 12 + 5 * 6 + 4);
    bytes[last] = 9;
    let text = first + 8;
    bytes[text] = 0xff;
    assert_eq!(read_statement(&bytes).unwrap_err().number, 4);
    bytes[last] = 3;
    assert_eq!(read_statement(&bytes).unwrap_err().number, 5);
    bytes[12] = 15;
    assert_eq!(read_statement(&bytes).unwrap_err().number, 5);
}

#[test]
fn r_08_tokens_left_over() {
    assert_eq!(statement_refusal("Statement 0\nNull"), (9, 1));
}

#[test]
fn r_09_declared_again_labels_before_types_before_parameters() {
    let label = "Label 0\nname \"A\"\n";
    let rel = "RelType 0\nname own \"A\"\n";
    let parameter = "Parameter 0\nname \"A\"\nTypeInt\n";
    let apart = "Apart\nname \"A\"\nname own \"A\"\n";
    let all = format!("Schema 7\n{apart}{parameter}{parameter}{rel}{rel}{label}{label}");
    assert_eq!(schema_refusal(&all), (10, 16));
    let later = format!("Schema 6\n{apart}{parameter}{parameter}{rel}{rel}{label}");
    assert_eq!(schema_refusal(&later), (11, 12));
    let last = format!("Schema 4\n{apart}{parameter}{parameter}{rel}");
    assert_eq!(schema_refusal(&last), (12, 7));
    assert_eq!(schema_refusal(&format!("Schema 2\n{label}{apart}")), (13, 3));
}

#[test]
fn r_12_functions_may_repeat_and_the_first_counts() {
    let schema = "Schema 2\nFunction 2\nname \"f\"\nFunction 4\nname own \"f\"";
    let call = "Statement 1\nWhere\nCall 1\nname \"f\"\nNull";
    assert_eq!(list(call, schema), NO_ITEM);
}

#[test]
fn r_13_the_statement_comes_first() {
    let refusal = check(&sheet("Statement 0\nNull"), &[], 0).unwrap_err();
    assert_eq!(refusal, Refusal { number: 9, sheet: 1, place: 1 });
}

#[test]
fn b_09_apart_pairs_are_counted_once() {
    let schema = "Schema 2\nApart\nname \"A\"\nname \"B\"\nApart\nname \"B\"\nname \"C\"";
    let set =
        |n: u32, names: &str| list(&format!("Statement 1\nSet 1\nSetLabels {n}\n{names}"), schema);
    assert_eq!(set(2, "name \"A\"\nname own \"A\""), NO_ITEM);
    let names = "name \"C\"\nname \"A\"\nname own \"A\"\nname \"B\"";
    assert_eq!(set(4, names), [[4023, 0, 0, 2, 1, 0, 0]]);
}

#[test]
fn b_18_nested_patterns_neither_create_nor_key_a_merge() {
    let inner = "PatternPredicate\nPattern 1\nPart 1\nNode 5\nNumber 3\nNumber 4\nname \"A\"\nname \"B\"\nMap 0";
    let statement = format!(
        "Statement 1\nMerge\nPattern 1\nPart 1\nNode 3\nNumber 1\nNumber 2\nname \"A\"\nMap 1\nname \"k\"\n{inner}"
    );
    let schema = "Schema 3\nLabel 2\nname \"A\"\nTuple 1\nname \"s\"\nProperty 0\nname \"k\"\nTypeInt\nLabel 0\nname \"B\"\nApart\nname \"A\"\nname \"B\"";
    assert_eq!(list(&statement, schema), [[3009, 1, 2, 4, 3, 0, 0]]);
}

#[test]
fn w_03_nested_items_stand_before_the_merge_keys() {
    let node = |properties: &str| format!("Node 3\nNumber 1\nNumber 2\nname \"A\"\n{properties}");
    let nested = "Map 1\nname \"k\"\nCall 0\nname \"g\"";
    let statement =
        format!("Statement 1\nMerge\nPattern 1\nPart 2\n{}\n{}", node("Map 0"), node(nested));
    let schema = "Schema 1\nLabel 1\nname \"A\"\nTuple 1\nname \"s\"";
    let found: Vec<u32> = list(&statement, schema).iter().map(|item| item[0]).collect();
    assert_eq!(found, [3003, 3006, 3009, 3009]);
}

#[test]
fn m_02_and_m_09_names_and_keys() {
    let statement = "Statement 1\nMerge\nPattern 1\nPart 1\nRel 5\nNumber 1\nNumber 2\nname \"R\"\nname \"S\"\nMap 3\nname \"é\"\nNull\nname \"b\"\nNull\nname own \"b\"\nNull";
    let schema =
        "Schema 1\nRelType 2\nname \"S\"\nTuple 1\nname \"z\"\nProperty 1\nname \"b\"\nTypeInt";
    assert_eq!(
        messages(statement, schema),
        [
            "unknown relationship type `:R`",
            "property `é` is not declared on relationship type(s) :R, :S",
            "MERGE key {b, é} on relationship type(s) :R, :S is not backed by a declared uniqueness constraint",
        ]
    );
}

#[test]
fn m_06_and_m_07_large_counts() {
    let schema = "Schema 2\nFunction 4294967295\nname \"f\"\nProcedure 4294967295\nname \"f\"";
    let statement =
        "Statement 2\nWhere\nCall 0\nname \"f\"\nCallClause 0\nNumber 7\nNumber 8\nname \"f\"";
    assert_eq!(
        messages(statement, schema),
        [
            "function `f` expects at least 2147483647 argument(s) but got 0",
            "procedure `f` expects exactly 4294967295 argument(s) but got 0",
        ]
    );
}

#[test]
fn d_01_to_d_04_names_and_endpoints() {
    let schema = sheet(
        "Schema 3\nRelType 5\nname \"b\"\nEndLabel\nname \"x\"\nStartLabel\nname \"y\"\nTuple 0\n\
         EndLabel\nname own \"x\"\nStartLabel\nname \"x\"\nRelType 1\nname \"\"\nEndLabel\nname \"x\"\n\
         RelType 0\nname \"B\"",
    );
    assert_eq!(rel_type_names(&schema, 3), Ok(vec![4, 5, 0]));
    assert_eq!(rel_type_names(&schema, 2), Err(Refusal { number: 16, sheet: 0, place: 0 }));
    let pairs = relationship_endpoints(&schema, b"b", 8);
    assert_eq!(pairs, Ok(vec![[2, 1], [2, 3], [1, 1], [1, 3]]));
    assert_eq!(relationship_endpoints(&schema, b"b", 7).unwrap_err().number, 16);
    for text in [&b""[..], b"B", b"none", b"\xff"] {
        assert_eq!(relationship_endpoints(&schema, text, 0), Ok(vec![]));
    }
}
