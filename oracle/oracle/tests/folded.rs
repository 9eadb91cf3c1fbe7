//! Document 02's lookup of functions, readings 2.5-01 to 2.5-03, and how the
//! published check stands to it over a provider that does not fold.

use cyrs_diag::DiagnosticsSink;
use cyrs_sema::schema_aware::check_schema_aware;
use oracle::answers::*;
use oracle::compare::read_pair;
use oracle::decode;
use oracle::notation::encode;
use oracle::sheet::{read_schema, read_statement};
use oracle::store::{Store, exact_store, store};

const LONG: usize = 1 << 24;

fn sheet(text: &str) -> Vec<u8> {
    encode(text).expect("a notation")
}

/// RETURN of a call of so many arguments.
fn call(name: &str, count: usize) -> String {
    let arguments = "\nNull".repeat(count);
    format!("Statement 1\nReturn 1\nCall {count}\nname \"{name}\"{arguments}")
}

fn function(name: &str, parameters: u32) -> String {
    format!("\nFunction {}\nname own \"{name}\"", 2 * parameters)
}

fn schema(declarations: &[String]) -> String {
    format!("Schema {}{}", declarations.len(), declarations.concat())
}

fn messages(statement: &str, schema: &str) -> Vec<String> {
    let (statement, schema) = (sheet(statement), sheet(schema));
    let count = check(&statement, &schema, LONG).expect("accepted").len();
    let text = |k| String::from_utf8(message(&statement, &schema, k, LONG).unwrap()).unwrap();
    (0..count).map(text).collect()
}

const NONE: [&str; 0] = [];

#[test]
fn r_01_the_26_letters_are_alike_in_either_case() {
    let spelt = ["count", "COUNT", "Count", "cOUNT"];
    for (called, declared) in spelt.iter().flat_map(|one| spelt.map(|other| (*one, other))) {
        assert_eq!(messages(&call(called, 1), &schema(&[function(declared, 1)])), NONE);
    }
    let letters: String = ('a'..='z').collect();
    let found = schema(&[function(&letters.to_ascii_uppercase(), 0)]);
    assert_eq!(messages(&call(&letters, 0), &found), NONE);
}

#[test]
fn r_01_every_other_byte_is_exact() {
    let pairs = [("@", "`"), ("[", "{"), ("É", "é"), ("k", "\u{212a}"), ("a[", "A{"), ("s", "ſ")];
    for (one, other) in pairs {
        for (called, declared) in [(one, other), (other, one)] {
            let found = messages(&call(called, 0), &schema(&[function(declared, 0)]));
            assert_eq!(found, [format!("unknown function `{called}`")]);
        }
    }
    let found = schema(&[function("École", 0), function("é[", 0)]);
    assert_eq!(messages(&call("ÉCOLE", 0), &found), NONE);
    assert_eq!(messages(&call("é[", 0), &found), NONE);
}

#[test]
fn r_01_the_first_of_the_folded_name_counts() {
    let three = schema(&[function("COUNT", 2), function("count", 1), function("Count", 0)]);
    for called in ["count", "COUNT", "Count"] {
        assert_eq!(messages(&call(called, 2), &three), NONE);
        let expected = format!("function `{called}` expects exactly 2 argument(s) but got 1");
        assert_eq!(messages(&call(called, 1), &three), [expected]);
    }
}

#[test]
fn r_02_a_procedure_in_other_case_is_unknown() {
    let declared = "Schema 2\nProcedure 0\nname \"p\"\nFunction 0\nname \"q\"";
    let called =
        |name: &str| format!("Statement 1\nCallClause 0\nNumber 1\nNumber 2\nname \"{name}\"");
    assert_eq!(messages(&called("p"), declared), NONE);
    assert_eq!(messages(&called("P"), declared), ["unknown procedure `P`"]);
    assert_eq!(messages(&called("Q"), declared), ["unknown procedure `Q`"]);
}

/// MERGE of a Node or Rel of one name and one key.
fn merge(kind: &str, name: &str, key: &str) -> String {
    format!(
        "Statement 1\nMerge\nPattern 1\nPart 1\n{kind} 3\nNumber 1\nNumber 9\nname \"{name}\"\n\
         Map 1\nname \"{key}\"\nNull"
    )
}

#[test]
fn r_02_labels_types_keys_and_tuples_in_other_case_are_unknown() {
    let items = "name \"a\"\nProperty 0\nname \"k\"\nTypeInt\nTuple 1\nname \"k\"";
    let declared = format!("Schema 2\nLabel 2\n{items}\nRelType 2\n{items}");
    for (kind, unknown, on) in [
        ("Node", "unknown label `:A`", "label(s) :"),
        ("Rel", "unknown relationship type `:A`", "relationship type(s) :"),
    ] {
        let of = |name, key| messages(&merge(kind, name, key), &declared);
        let key = |name: &str, key: &str| format!("property `{key}` is not declared on {on}{name}");
        assert_eq!(of("a", "k"), NONE);
        assert_eq!(of("A", "k"), [unknown.to_owned(), key("A", "k")]);
        let unbacked =
            format!("MERGE key {{K}} on {on}a is not backed by a declared uniqueness constraint");
        assert_eq!(of("a", "K"), [key("a", "K"), unbacked]);
    }
}

#[test]
fn r_02_aparts_keep_exact_bytes() {
    let apart = "Schema 1\nApart\nname \"A\"\nname \"a\"";
    let set = |one: &str, other: &str| {
        format!("Statement 1\nSet 1\nSetLabels 2\nname \"{one}\"\nname \"{other}\"")
    };
    assert_eq!(messages(&set("A", "A"), apart), NONE);
    assert_eq!(messages(&set("A", "a"), apart).len(), 1);
}

#[test]
fn r_02_names_that_differ_in_case_are_declared_side_by_side() {
    let two = |declared: &str, more: &str| {
        format!(
            "\n{declared}\nname \"a\"{more}\n{declared}\nname \"B\"{more}\n{declared}\nname \"A\"{more}"
        )
    };
    let of_kinds = [two("Label 0", ""), two("RelType 0", ""), two("Parameter 0", "\nTypeInt")];
    let bytes = sheet(&format!("Schema 9{}", of_kinds.concat()));
    let read = read_schema(&bytes).expect("accepted");
    for names in [label_names, rel_type_names, parameter_names] {
        let numbers = names(&bytes, 3).unwrap();
        let texts = numbers.iter().map(|number| read.names[*number as usize].as_str());
        assert_eq!(texts.collect::<Vec<_>>(), ["A", "B", "a"]);
    }
}

#[test]
fn r_02_endpoints_and_digest_keep_exact_bytes() {
    let of = |name: &str| {
        let sides = "StartLabel\nname \"x\"\nEndLabel\nname \"x\"";
        sheet(&format!("Schema 1\nRelType 2\nname \"{name}\"\n{sides}"))
    };
    assert_eq!(relationship_endpoints(&of("r"), b"r", 2), Ok(vec![[1, 1]]));
    assert_eq!(relationship_endpoints(&of("r"), b"R", 2), Ok(vec![]));
    assert_ne!(schema_digest(&of("r")), schema_digest(&of("R")));
}

#[test]
fn r_03_messages_have_the_name_as_the_statement_has_it() {
    let found = schema(&[function("sum", 1)]);
    assert_eq!(messages(&call("Total", 1), &found), ["unknown function `Total`"]);
    let expected = "function `SUM` expects exactly 1 argument(s) but got 0";
    assert_eq!(messages(&call("SUM", 0), &found), [expected]);
}

#[test]
fn a_name_that_is_called_and_a_label_is_folded_in_the_call_alone() {
    let statement = "Statement 2\nMatch\nPattern 1\nPart 1\nNode 2\nNumber 1\nNumber 2\nname \"A\"\n\
                     Return 1\nCall 0\nname \"A\"";
    let declared = "Schema 2\nLabel 0\nname \"a\"\nFunction 0\nname \"a\"";
    assert_eq!(messages(statement, declared), ["unknown label `:A`"]);
}

/// What the published check says over a provider.
fn published(statement: &[u8], provider: &Store) -> Vec<String> {
    let statement = read_statement(statement).expect("a statement");
    let mut sink = DiagnosticsSink::default();
    check_schema_aware(&decode::statement(&statement), provider, &mut sink);
    sink.list.iter().map(|found| found.message.clone()).collect()
}

#[test]
fn over_a_provider_that_does_not_fold_the_published_check_differs() {
    let (statement, schema) = (sheet(&call("F", 0)), sheet(&schema(&[function("f", 0)])));
    assert_eq!((statement.len(), schema.len()), (37, 32));
    let (_, declared) = read_pair(&statement, &schema).expect("accepted");
    let exact = exact_store(&declared).expect("no duplicate");
    assert_eq!(published(&statement, &exact), ["unknown function `F`"]);
    let folding = store(&declared).expect("no duplicate");
    assert_eq!(published(&statement, &folding), NONE);
    assert_eq!(check(&statement, &schema, LONG), Ok(vec![]));
}
