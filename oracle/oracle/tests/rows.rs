//! Readings 2.1-01 to 2.1-11, one by one where a case shows them.

use oracle::rows::{
    BOOL, Broken, FLOAT, Field, INT, NULL, STRING, kind, next_row, row_statement, rows, sheet_of,
    within_limits,
};
use oracle::sheet::{Refusal, read_statement};
use oracle::text_run::{TextTally, cells, run};

const LONG: usize = 1 << 20;

fn refused(number: u32, sheet: u32, place: u32) -> Result<Vec<u8>, Refusal> {
    Err(Refusal { number, sheet, place })
}

fn asked(text: &[u8], row: u32) -> Result<Vec<u8>, Refusal> {
    row_statement(text, b"A", row, LONG)
}

/// The contents of all fields, row by row.
fn contents(text: &[u8]) -> Vec<Vec<Vec<u8>>> {
    let fields = |fields: Vec<Field>| fields.into_iter().map(|field| field.content).collect();
    rows(text).expect("a text of the grammar").into_iter().map(|row| fields(row.fields)).collect()
}

fn broken_at(text: &[u8]) -> usize {
    let Err(Broken(at)) = rows(text) else { panic!("{} is kept", text.escape_ascii()) };
    assert_eq!(asked(text, 0), refused(17, 0, 0));
    at
}

#[test]
fn r_01_fields_by_comma_and_lines_by_crlf() {
    let text = b"a, b\r\n\"c,\r\n\"\"d\",\x80\xff!#+-~";
    let expected: [[&[u8]; 2]; 2] = [[b"a", b" b"], [b"c,\r\n\"d", b"\x80\xff!#+-~"]];
    assert_eq!(contents(text), expected);
    assert_eq!(contents(b",\r\n,,"), [vec![b""; 2], vec![b""; 3]]);
}

#[test]
fn r_01_every_byte_alone_as_a_field() {
    for byte in 0..=255 {
        let text = matches!(byte, 0x20..=0x21 | 0x23..=0x2c | 0x2d..=0x7e | 0x80..=0xff);
        assert_eq!(rows(&[byte]).is_ok(), text, "{byte}");
        let quoted = text || matches!(byte, b'\r' | b'\n');
        assert_eq!(rows(&[b'"', byte, b'"']).is_ok(), quoted, "{byte} in quotes");
    }
}

#[test]
fn r_02_where_a_text_breaks() {
    let broken: [(&[u8], usize); 14] = [
        (b"a\"b", 1),
        (b"a\nb", 1),
        (b"a\rb", 2),
        (b"a\r", 2),
        (b"\"a\"b", 3),
        (b"\"a\" ", 3),
        (b"\"a\"\r", 4),
        (b"\"a\"\n", 3),
        (b"\"a", 2),
        (b"\"a\"\"", 4),
        (b"a,\t", 2),
        (b"\"\x00\"", 1),
        (b"\x7f", 0),
        (b"a\r\n1\r\n\"\x7f\"", 7),
    ];
    for (text, at) in broken {
        assert_eq!(broken_at(text), at, "{}", text.escape_ascii());
    }
}

#[test]
fn r_02_a_byte_order_mark_belongs_to_the_first_header() {
    let sheet = asked("\u{feff}a\r\n1".as_bytes(), 0).expect("a row");
    assert_eq!(read_statement(&sheet).expect("a sheet").names, ["A", "\u{feff}a"]);
    assert_eq!(broken_at("\u{feff}\"a\"\r\n1".as_bytes()), 3);
}

#[test]
fn r_03_the_last_line_end_opens_no_row() {
    assert_eq!(contents(b"a\r\n").len(), 1);
    assert_eq!(contents(b"a\r\n\r\n"), [[b"a".to_vec()], [Vec::new()]]);
    assert_eq!(contents(b"\r\n"), [[Vec::new()]]);
    assert_eq!(rows(b""), Ok(Vec::new()));
    for row in [0, 1, u32::MAX] {
        assert_eq!(asked(b"", row), refused(18, 0, 0));
    }
    assert_eq!(asked(b"a\r\n", 0), refused(18, 0, 0));
    assert!(asked(b"a\r\n\r\n", 0).is_ok());
    assert_eq!(asked(b"a\r\n\r\n", 1), refused(18, 0, 0));
}

#[test]
fn r_04_rows_and_their_widths() {
    let text = b"a,b\r\n1\r\n1,2\r\n1,2,3\r\n";
    let good: Vec<bool> = (0..5).map(|row| asked(text, row).is_ok()).collect();
    assert_eq!(good, [false, true, false, false, false]);
    assert_eq!(asked(text, 0), refused(18, 0, 0));
    assert_eq!(asked(text, u32::MAX), refused(18, 0, 0));
}

#[test]
fn r_05_kinds_of_unquoted_cells() {
    let eighteen = "9".repeat(18);
    let many = format!("-{0}.{0}", "1".repeat(40));
    let cells = [
        (NULL, vec![""]),
        (BOOL, vec!["true", "false"]),
        (INT, vec!["0", "-0", "007", &eighteen, "-1"]),
        (FLOAT, vec!["0.0", "-1.50", &many]),
        (STRING, vec!["9999999999999999999", "-", "+1", "1.", ".5", "1e3", " 1", "True", "1.2.3"]),
        (STRING, vec!["-9999999999999999999", "--1", "-.5", "-1.", ".", "true ", "٣", "1 "]),
    ];
    for (expected, texts) in cells {
        for text in texts {
            let cell = Field { quoted: false, content: text.as_bytes().to_vec() };
            assert_eq!(kind(&cell), expected, "{text}");
        }
    }
}

#[test]
fn r_06_quoted_cells_are_strings() {
    for text in ["", "true", "1", "1.5"] {
        assert_eq!(kind(&Field { quoted: true, content: text.into() }), STRING);
    }
    let sheet = asked(b"a,b\r\n\"\",\xff", 0).expect("cells need not be UTF-8");
    let sheet = read_statement(&sheet).expect("a sheet");
    assert_eq!([sheet.kind(10), sheet.kind(12)], [STRING, STRING]);
}

#[test]
fn r_07_names_with_quoting_undone() {
    let text = b"\"a\"\"b\",a,a,\"\",\r\n1,2,3,4,5";
    let sheet = row_statement(text, b"", 0, LONG).expect("a row");
    let sheet = read_statement(&sheet).expect("a sheet");
    assert_eq!(sheet.names, ["", "a\"b", "a", "a", "", ""]);
    assert_eq!(sheet.texts_under(8), ["a\"b", "a", "a", "", ""]);
}

#[test]
fn r_08_the_tokens() {
    let text = b"stage,green\r\n1,\"7\"\r\n";
    let tokens = vec![
        (90, 1),
        (72, 0),
        (60, 1),
        (61, 1),
        (62, 3),
        (51, 13),
        (51, 18),
        (50, 0),
        (14, 2),
        (50, 1),
        (3, 0),
        (50, 2),
        (5, 0),
    ];
    let names = ["Phase", "stage", "green"].map(|name| name.into()).to_vec();
    let expected = oracle::tree::Raw::new(tokens, names);
    assert_eq!(row_statement(text, b"Phase", 0, LONG), Ok(expected.bytes()));
    assert_eq!(sheet_of(expected.names.clone(), &[INT, STRING], 13, 18), expected);
}

fn span(text: &[u8], row: u32) -> [u32; 2] {
    let sheet = read_statement(&asked(text, row).expect("a row")).expect("a sheet");
    [sheet.value(5), sheet.value(6)]
}

#[test]
fn r_09_the_span_is_the_rows_bytes() {
    let text = b"a\r\n\r\n\"\r\n\"\r\nlast";
    assert_eq!([0, 1, 2].map(|row| span(text, row)), [[3, 3], [5, 9], [11, 15]]);
    assert_eq!(span(b"a\r\n1", 0), span(b"a\r\n1\r\n", 0));
}

#[test]
fn r_10_refusals_in_turn() {
    let wide = |columns: usize, last: &str, rest: &str| {
        let names = ",".repeat(columns - 1);
        format!("{names}{last}\r\n{names}\r\n{rest}").into_bytes()
    };
    let mut bad = wide(1_500, "z", "");
    let z = bad.iter().position(|byte| *byte == b'z').expect("a z");
    bad[z] = 0xff;
    assert_eq!(row_statement(&bad, b"A", 0, 0), refused(5, 1, 1_500));
    assert_eq!(row_statement(&bad, b"\xff", 0, 0), refused(5, 1, 0));
    assert_eq!(row_statement(&bad, b"\xff", 1, 0), refused(18, 0, 0));
    bad.push(b'\t');
    assert_eq!(row_statement(&bad, b"\xff", 1, 0), refused(17, 0, 0));
    assert_eq!(row_statement(&wide(1_500, "", ""), b"A", 0, 0), refused(19, 0, 0));
    assert_eq!(row_statement(&wide(1_023, "", ""), b"A", 0, 0), refused(16, 0, 0));
    assert_eq!(row_statement(b"\"\xc3\"\"\xa9\"\r\n1", b"A", 0, LONG), refused(5, 1, 1));
}

#[test]
fn r_10_the_buffer_exactly_full_and_one_short() {
    let text = b"a\r\n1";
    let length = asked(text, 0).expect("a row").len();
    assert_eq!(length, 12 + 5 * 11 + 4 * 2 + 2);
    assert!(row_statement(text, b"A", 0, length).is_ok());
    assert_eq!(row_statement(text, b"A", 0, length - 1), refused(16, 0, 0));
}

#[test]
fn r_11_limits() {
    let names = |count: usize, bytes: usize| {
        let mut names = vec![Vec::new(); count];
        names[count - 1] = vec![b'n'; bytes];
        names
    };
    let limited = |names: &[Vec<u8>], stop| within_limits(names, 0, stop);
    let past = Err(Refusal { number: 19, sheet: 0, place: 0 });
    assert_eq!(limited(&names(1_024, 32_768), u32::MAX as usize), Ok([0, u32::MAX]));
    assert_eq!(limited(&names(1_025, 0), 0), past);
    assert_eq!(limited(&names(1, 32_769), 0), past);
    assert_eq!(limited(&names(1, 0), u32::MAX as usize + 1), past);
}

#[test]
fn rows_one_by_one() {
    let text = b"a,b\r\n\"\r\n\",\x7f\r\n";
    let row = next_row(text, 0).expect("kept").expect("a row");
    assert_eq!([row.start, row.stop, row.next], [0, 3, 5]);
    assert_eq!(next_row(text, 5), Err(Broken(10)));
    assert_eq!(next_row(text, 3).expect("kept").expect("a row").next, 5);
    assert_eq!(next_row(text, text.len()), Ok(None));
    assert_eq!(next_row(text, usize::MAX), Ok(None));
}

#[test]
fn a_short_run_shows_no_difference_and_misses_nothing() {
    let tally: TextTally =
        run(2, 2_000, &mut Default::default()).unwrap_or_else(|what| panic!("{what}"));
    assert_eq!(tally.missing(), Vec::<String>::new());
}

#[test]
fn cells_in_hex() {
    assert!(cells(1, 100).lines().any(|line| line == " 0"), "the empty text has no row");
    assert!(cells(1, 100).lines().any(|line| line == "610d0a 1 61"));
}
