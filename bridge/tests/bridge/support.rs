//! What several tests use: the worked example, and sheets by hand.
use nurbellat::encode::*;
use nurbellat::Span;

/// What every place of lent memory holds before a call, and after a refusal.
pub const NUMBER: u32 = 0xa5a5_5a5a;
pub const BYTE: u8 = 0xa5;

/// Both sheets of document 01's worked example, statement first.
pub fn example() -> (Vec<u8>, Vec<u8>) {
    let statement = encode_statement(&example_statement()).expect("a small statement");
    let schema = encode_schema(&example_schema()).expect("a small schema");
    (statement, schema)
}

/// MERGE (:Phase {stage: 1, green: "7"}), element 6 to 37.
pub fn example_statement() -> Statement {
    let props = Expr::Map(vec![("stage".into(), Expr::Int), ("green".into(), Expr::String)]);
    let phase = node(Span { start: 6, end: 37 }, &["Phase"], Some(props));
    Statement { clauses: vec![Clause::Merge(pattern(vec![phase]))] }
}

/// Phase has stage Int, green Int, Tuple (site, stage).
pub fn example_schema() -> Schema {
    let property = |name| LabelItem::Property(property(name, BaseType::Int, false));
    let tuple = LabelItem::Tuple(texts(&["site", "stage"]));
    let items = vec![property("stage"), property("green"), tuple];
    Schema { declarations: vec![Declaration::Label { name: "Phase".into(), items }] }
}

pub fn texts(texts: &[&str]) -> Vec<String> {
    texts.iter().map(|text| text.to_string()).collect()
}

pub fn node(span: Span, labels: &[&str], props: Option<Expr>) -> Element {
    Element { kind: ElementKind::Node, span, names: texts(labels), props }
}

/// A pattern of one part.
pub fn pattern(elements: Vec<Element>) -> Pattern {
    Pattern { parts: vec![Part { elements }] }
}

pub fn property(name: &str, base: BaseType, required: bool) -> Property {
    Property { name: name.into(), ty: base.into(), required }
}

/// Tokens as `crates/cases` notes them: `KIND.VALUE`, or `KIND` alone for the value 0.
pub fn noted(words: &str) -> Vec<(u8, u32)> {
    let token = |word: &str| {
        let (kind, value) = word.split_once('.').unwrap_or((word, "0"));
        (kind.parse().expect("a kind"), value.parse().expect("a value"))
    };
    words.split_whitespace().map(token).collect()
}

/// What makes a sheet of tokens and names, in one kind or the other.
pub type Make = fn(&[(u8, u32)], &[&[u8]]) -> Vec<u8>;

/// A sheet of these tokens and names, right or wrong.
pub fn sheet(tokens: &[(u8, u32)], names: &[&[u8]]) -> Vec<u8> {
    written(tokens, names, 0, 4)
}

/// The same in the thin kind: the top bit of the token count, and ends of two bytes.
pub fn thin_sheet(tokens: &[(u8, u32)], names: &[&[u8]]) -> Vec<u8> {
    written(tokens, names, 0x8000_0000, 2)
}

fn written(tokens: &[(u8, u32)], names: &[&[u8]], mark: u32, width: usize) -> Vec<u8> {
    let text = names.concat();
    let mut bytes = Vec::new();
    for size in [tokens.len() as u32 | mark, names.len() as u32, text.len() as u32] {
        bytes.extend(size.to_le_bytes());
    }
    bytes.extend(tokens.iter().map(|(kind, _)| *kind));
    bytes.extend(tokens.iter().flat_map(|(_, value)| value.to_le_bytes()));
    let mut end = 0;
    for name in names {
        end += name.len() as u32;
        bytes.extend(&end.to_le_bytes()[..width]);
    }
    bytes.extend(text);
    bytes
}

/// The u32 at a byte.
pub fn number_at(bytes: &[u8], at: usize) -> u32 {
    u32::from_le_bytes(bytes[at..at + 4].try_into().expect("four bytes"))
}

/// The tokens of a sheet whose frame holds.
pub fn tokens(sheet: &[u8]) -> Vec<(u8, u32)> {
    let count = number_at(sheet, 0) as usize;
    (0..count).map(|i| (sheet[12 + i], number_at(sheet, 12 + count + 4 * i))).collect()
}
