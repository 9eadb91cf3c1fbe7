//! Statements joined to one paper: its bytes, every refusal in turn, the limits, its list and its messages.
use crate::support::{example, noted, number_at, sheet, BYTE};
use nurbellat::Sheet::{Neither, Second, Statement};
use nurbellat::*;

fn drawn(number: u32, sheet: Sheet, place: u32) -> Refusal {
    Refusal { number, sheet, place }
}

/// MATCH (:A) RETURN f(), the node from 6 to 10, with a name that nothing uses.
fn first() -> Vec<u8> {
    let tokens = "90.2 70 60.1 61.1 62.2 51.6 51.10 50.2 75.1 16 50.0";
    sheet(&noted(tokens), &[b"f", b"", b"A"])
}

/// CALL p() from 3 to 9, MERGE (:A:B), the node from 12 to 20.
fn second() -> Vec<u8> {
    let tokens = "90.2 85 51.3 51.9 50.1 72 60.1 61.1 62.4 51.12 51.20 50.0 50.2";
    sheet(&noted(tokens), &[b"A", b"p", "é".as_bytes()])
}

/// The clauses of both; the second's names are 3, 4 and 5.
fn both() -> Vec<u8> {
    let tokens = "90.4 70 60.1 61.1 62.2 51.6 51.10 50.2 75.1 16 50.0 \
                  85 51.3 51.9 50.4 72 60.1 61.1 62.4 51.12 51.20 50.3 50.5";
    sheet(&noted(tokens), &[b"f", b"", b"A", b"A", b"p", "é".as_bytes()])
}

/// No clause, but a name.
fn bare() -> Vec<u8> {
    sheet(&noted("90"), &[b"x"])
}

/// Declares nothing.
fn no_schema() -> Vec<u8> {
    sheet(&noted("100"), &[])
}

#[test]
fn the_joined_sheet() {
    assert_eq!(joined_sheet(&first(), &second()), Ok(both()));
    assert_eq!(read_statement(&both()), Ok(()));
    assert_eq!(both().len(), first().len() + second().len() - 17);
    let empty = sheet(&noted("90"), &[]);
    assert_eq!(joined_sheet(&empty, &empty), Ok(empty.clone()));
}

/// Code, start, end, owner, stage, ordinal, clause and message of each breach.
fn listed(statement: &[u8]) -> Vec<([u32; 7], String)> {
    let schema = no_schema();
    let found = diagnostics(statement, &schema).expect("an accepted pair");
    let numbers = |item: Diagnostic| {
        let Diagnostic { code, span, owner, stage, ordinal, clause } = item;
        [code, span.start, span.end, owner, stage, ordinal, clause]
    };
    found.map(|(item, message)| (numbers(item), message)).collect()
}

#[test]
fn the_list_of_a_joined_paper() {
    let (of_first, of_second) = (listed(&first()), listed(&second()));
    assert_eq!((of_first.len(), of_second.len()), (2, 3));
    let joined = listed(&joined_sheet(&first(), &second()).expect("two short sheets"));
    let expected = [
        ([3001, 6, 10, 4, 0, 0, 0], "unknown label `:A`"),
        ([3006, 0, 0, 9, 0, 0, 1], "unknown function `f`"),
        ([3008, 3, 9, 11, 0, 0, 2], "unknown procedure `p`"),
        ([3001, 12, 20, 18, 0, 0, 3], "unknown label `:A`"),
        ([3001, 12, 20, 18, 0, 1, 3], "unknown label `:é`"),
    ];
    let expected = expected.map(|(numbers, message)| (numbers, message.to_owned()));
    assert_eq!(joined, expected);
    // The first's list, then the second's with ten tokens and two clauses before it.
    let moved = of_second.into_iter().map(
        |([code, start, end, owner, stage, ordinal, clause], message)| {
            ([code, start, end, owner + 10, stage, ordinal, clause + 2], message)
        },
    );
    assert_eq!(joined, of_first.into_iter().chain(moved).collect::<Vec<_>>());
}

#[test]
fn the_worked_example_twice() {
    let (statement, schema) = example();
    let twice = joined_sheet(&statement, &statement).expect("two short sheets");
    let lines = |statement: &[u8]| -> Vec<String> {
        let found = diagnostics(statement, &schema).expect("an accepted pair");
        found.map(|(item, message)| format!("{item} {message}")).collect()
    };
    let [green, key] = &lines(&statement)[..] else { panic!("the example has two breaches") };
    let moved = |line: &str| line.replacen(" 37 4 ", " 37 16 ", 1);
    assert_eq!(lines(&twice), [green.clone(), key.clone(), moved(green), moved(key)]);
}

#[test]
fn statements_without_clauses_leave_no_trace_in_the_list() {
    for statement in [first(), second(), bare()] {
        let list = listed(&statement);
        let (behind, before) =
            (joined_sheet(&bare(), &statement), joined_sheet(&statement, &bare()));
        let (behind, before) = (behind.expect("short"), before.expect("short"));
        assert_eq!((listed(&behind), listed(&before)), (list.clone(), list));
        // The name that nothing uses stays.
        let names = number_at(&statement, 4) + 1;
        assert_eq!((number_at(&behind, 4), number_at(&before, 4)), (names, names));
    }
}

#[test]
fn three_statements_both_ways() {
    let join = |one: &[u8], other: &[u8]| joined_sheet(one, other).expect("short sheets");
    let (statement, _) = example();
    for [a, b, c] in [[first(), second(), statement], [second(), bare(), first()]] {
        let three = join(&join(&a, &b), &c);
        assert_eq!(three, join(&a, &join(&b, &c)));
        assert_eq!(three.len(), a.len() + b.len() + c.len() - 2 * 17);
    }
}

#[test]
fn refusals_in_turn() {
    let (good, schema) = (first(), no_schema());
    let cut = &good[..good.len() - 1];
    let no_utf8 = sheet(&noted("90"), &[b"a", b"\xff"]);
    let left_over = sheet(&noted("90 3"), &[]);
    let cases: [(&[u8], &[u8], Refusal); 9] = [
        (&[], &[], drawn(1, Statement, 0)),
        (&good, &[], drawn(1, Second, 0)),
        (cut, &no_utf8, drawn(3, Statement, 0)),
        (&no_utf8, cut, drawn(5, Statement, 1)),
        (&good, cut, drawn(3, Second, 0)),
        (&good, &no_utf8, drawn(5, Second, 1)),
        (&good, &left_over, drawn(9, Second, 1)),
        (&schema, &good, drawn(6, Statement, 0)),
        (&good, &schema, drawn(6, Second, 0)),
    ];
    for (first, second, expected) in cases {
        let mut out = [BYTE; 300];
        assert_eq!(join_statements(first, second, &mut out), Err(expected));
        assert_eq!(join_statements(first, second, &mut []), Err(expected));
        assert_eq!(out, [BYTE; 300]);
        assert_eq!(joined_sheet(first, second), Err(expected));
    }
}

/// RETURN of so many nulls less two, and so many names, the first of so many bytes and the others empty.
fn sized([tokens, names, text]: [usize; 3]) -> Vec<u8> {
    let mut all = vec![(1, 0); tokens];
    all[0] = (90, 1);
    all[1] = (75, tokens as u32 - 2);
    let long = vec![b'n'; text];
    let mut texts: Vec<&[u8]> = vec![b""; names];
    texts.iter_mut().take(1).for_each(|name| *name = &long);
    sheet(&all, &texts)
}

#[test]
fn each_limit_and_one_past_it() {
    let limits: [[[usize; 3]; 2]; 4] = [
        [[2_000, 0, 0], [2_097, 0, 0]],
        [[2, 1_000, 0], [2, 24, 0]],
        [[2, 1, 2_768], [2, 1, 30_000]],
        [[96, 24, 768], [4_001, 1_000, 32_000]],
    ];
    for (number, [first, second]) in limits.into_iter().enumerate() {
        let joined = joined_sheet(&sized(first), &sized(second)).expect("it just fits");
        assert_eq!(read_statement(&joined), Ok(()));
        let past = (0..3).filter(|size| number == *size || number == 3);
        for size in past {
            let mut more = second;
            more[size] += 1;
            past_a_limit(&sized(first), &sized(more));
        }
    }
    assert_eq!(
        joined_sheet(&sized(limits[3][0]), &sized(limits[3][1])).map(|s| s.len()),
        Ok(57_356)
    );
}

/// 20 whatever is lent, but behind a fault of either sheet.
fn past_a_limit(first: &[u8], second: &[u8]) {
    assert_eq!((read_statement(first), read_statement(second)), (Ok(()), Ok(())));
    let mut out = vec![BYTE; 57_356];
    assert_eq!(join_statements(first, second, &mut out), Err(drawn(20, Neither, 0)));
    assert_eq!(join_statements(first, second, &mut []), Err(drawn(20, Neither, 0)));
    let cut = &second[..second.len() - 1];
    assert_eq!(join_statements(first, cut, &mut out), Err(drawn(3, Second, 0)));
    assert_eq!(join_statements(cut, first, &mut out), Err(drawn(3, Statement, 0)));
    assert_eq!(out, vec![BYTE; 57_356]);
    assert_eq!(joined_sheet(first, second), Err(drawn(20, Neither, 0)));
}

#[test]
fn words_of_its_refusals() {
    let said = drawn(20, Neither, 0).to_string();
    assert_eq!(said, "refused 20: the joined sheet would pass a size limit");
    let said = drawn(6, Second, 3).to_string();
    assert_eq!(
        said,
        "refused 6, second statement sheet, token 3: a kind or value is not allowed here"
    );
}
