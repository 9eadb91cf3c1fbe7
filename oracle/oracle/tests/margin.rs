//! Document 02's margin list and clause numbers, and readings 2.3-01 to 2.3-05.

use oracle::answers::{check, margin_list, message};
use oracle::items::{ITEM_WIDTH, Item};
use oracle::limits;
use oracle::notation::encode;
use oracle::run::Case;
use oracle::sample::worked_example;
use oracle::sheet::Refusal;

const LONG: usize = 1 << 24;

fn sheet(text: &str) -> Vec<u8> {
    encode(text).expect("a notation")
}

/// MATCH of a node from 9, another from 2 that calls a function, and a third
/// from 9; a WHERE that calls a function; CALL of a procedure from 5.
const PAPER: &str = r#"
Statement 3
  Match
    Pattern 1
      Part 3
        Node 2
          Number 9
          Number 12
          name "A"
        Node 3
          Number 2
          Number 20
          name "B"
          Map 1
            name "k"
            Call 0
              name "f"
        Node 2
          Number 9
          Number 10
          name "C"
  Where
    Call 0
      name "g"
  CallClause 0
    Number 5
    Number 6
    name "p"
"#;

/// Start, owner and clause of each item.
fn shown(items: &[Item]) -> Vec<[u32; 3]> {
    items.iter().map(|item| [item.start, item.owner, item.clause]).collect()
}

#[test]
fn the_clause_number_counts_from_0_and_is_the_owners() {
    let found = check(&sheet(PAPER), &sheet("Schema 0"), LONG).unwrap();
    let (first, second, call, third) = ([9, 4, 0], [2, 8, 0], [0, 14, 0], [9, 16, 0]);
    let expected = [first, second, second, call, third, [0, 21, 1], [5, 23, 2]];
    assert_eq!(shown(&found), expected);
}

#[test]
fn the_margin_list_goes_by_start_and_then_by_the_checks_order() {
    let found = margin_list(&sheet(PAPER), &sheet("Schema 0"), LONG).unwrap();
    let second = [2, 8, 0];
    let expected = [[0, 14, 0], [0, 21, 1], second, second, [5, 23, 2], [9, 4, 0], [9, 16, 0]];
    assert_eq!(shown(&found), expected);
    let of_second: Vec<u32> = found[2..4].iter().map(|item| item.code).collect();
    assert_eq!(of_second, [3001, 3003]);
}

#[test]
fn a_message_counts_the_checks_list() {
    let (statement, schema) = (sheet(PAPER), sheet("Schema 0"));
    assert_eq!(message(&statement, &schema, 0, LONG).unwrap(), b"unknown label `:A`");
    assert_eq!(message(&statement, &schema, 6, LONG).unwrap(), b"unknown procedure `p`");
}

#[test]
fn two_items_take_14_places() {
    assert_eq!(ITEM_WIDTH, 7);
    let (statement, schema) = worked_example();
    let too_long = Err(Refusal { number: 14, sheet: 0, place: 0 });
    for ask in [check, margin_list] {
        assert_eq!(ask(&statement, &schema, 14).map(|items| items.len()), Ok(2));
        assert_eq!(ask(&statement, &schema, 13), too_long);
    }
}

#[test]
fn the_margin_list_is_refused_as_the_check() {
    let (statement, schema) = worked_example();
    let sheets = [&statement[..], &schema, &statement[..11], &schema[..11], &[]];
    for (one, other) in sheets.iter().flat_map(|one| sheets.map(|other| (*one, other))) {
        let expected = check(one, other, LONG).map(|items| items.len());
        assert_eq!(margin_list(one, other, LONG).map(|items| items.len()), expected);
    }
}

/// A check's list and its margin list.
type Both = (Vec<Item>, Vec<Item>);

/// Both lists of every pair at a limit that is accepted.
fn near_the_limits() -> Vec<Both> {
    let both = |case: Case| {
        let list = check(&case.statement, &case.schema, LONG).ok()?;
        Some((list, margin_list(&case.statement, &case.schema, LONG).expect("accepted")))
    };
    limits::cases().into_iter().filter_map(both).collect()
}

#[test]
fn lists_near_the_limits_are_long_and_stay_or_are_turned_round() {
    let lists = near_the_limits();
    let longest = |such: fn(&&Both) -> bool| {
        lists.iter().filter(such).map(|(list, _)| list.len()).max().expect("such a list")
    };
    assert_eq!(longest(|(list, margin)| list == margin), 4_089);
    assert_eq!(longest(|(list, margin)| list.iter().rev().eq(margin)), 1_023);
}

#[test]
fn lists_near_the_limits_end_in_calls_that_come_first_and_in_late_clauses() {
    let lists = near_the_limits();
    let calls = |(list, margin): &Both| {
        let behind = list.iter().rev().take_while(|item| item.code == 3006).count();
        (behind < list.len() && margin.starts_with(&list[list.len() - behind..])).then_some(behind)
    };
    assert_eq!(lists.iter().filter_map(calls).max(), Some(1_021));
    let clauses = lists.iter().flat_map(|(list, _)| list).map(|item| item.clause);
    assert_eq!(clauses.max(), Some(4_091));
}
