//! Values by seed: what encodes is read again, whatever the value.
use crate::support::tokens;
use nurbellat::encode::*;
use nurbellat::*;
use std::collections::BTreeSet;

const TEXTS: &[&str] = &["A", "B", "a", "ab", "", "é", "日本", "stage"];

/// splitmix64, the texts that names have, and how many more values may nest.
struct Rng {
    state: u64,
    texts: &'static [&'static str],
    left: usize,
}

impl Rng {
    fn new(seed: u64, left: usize) -> Self {
        Rng { state: seed, texts: TEXTS, left }
    }

    fn draw(&mut self) -> u64 {
        self.state = self.state.wrapping_add(0x9e37_79b9_7f4a_7c15);
        let z = (self.state ^ (self.state >> 30)).wrapping_mul(0xbf58_476d_1ce4_e5b9);
        let z = (z ^ (z >> 27)).wrapping_mul(0x94d0_49bb_1331_11eb);
        z ^ (z >> 31)
    }

    fn below(&mut self, bound: u64) -> u64 {
        self.draw() % bound
    }

    fn flag(&mut self) -> bool {
        self.below(2) == 1
    }

    fn text(&mut self) -> String {
        self.texts[self.below(self.texts.len() as u64) as usize].into()
    }

    fn many<T>(&mut self, make: impl Fn(&mut Self) -> T) -> Vec<T> {
        let count = self.below(4);
        (0..count).map(|_| make(self)).collect()
    }

    fn maybe<T>(&mut self, make: impl Fn(&mut Self) -> T) -> Option<T> {
        self.flag().then(|| make(self))
    }

    /// Mostly right, once in 200 with its end below its start.
    fn span(&mut self) -> Span {
        let start = self.below(90) as u32 + 1;
        let end = if self.below(200) == 0 { start - 1 } else { start + self.below(9) as u32 };
        Span { start, end }
    }

    fn statement(&mut self) -> Statement {
        Statement { clauses: self.many(Rng::clause) }
    }

    fn clause(&mut self) -> Clause {
        match self.below(11) {
            0 => Clause::Match(self.pattern()),
            1 => Clause::Create(self.pattern()),
            2 => Clause::Merge(self.pattern()),
            3 => Clause::Where(self.expr()),
            4 => {
                let projections = self.many(Rng::expr);
                Clause::With { projections, filter: self.maybe(Rng::expr) }
            }
            5 => Clause::Return(self.projections()),
            6 => Clause::Unwind(self.expr()),
            7 => Clause::Set(self.many(Rng::set_item)),
            8 => Clause::Remove(self.many(Rng::remove_item)),
            9 => Clause::Delete(self.many(Rng::expr)),
            _ => {
                let (span, procedure) = (self.span(), self.text());
                Clause::Call { span, procedure, args: self.many(Rng::expr) }
            }
        }
    }

    /// Few, or once in 20 about as many as a sheet has tokens.
    fn projections(&mut self) -> Vec<Expr> {
        if self.below(20) != 0 {
            return self.many(Rng::expr);
        }
        let count = 4_000 + self.below(200);
        (0..count).map(|_| self.leaf()).collect()
    }

    fn set_item(&mut self) -> SetItem {
        match self.below(3) {
            0 => SetItem::Property { target: self.expr(), value: self.expr() },
            1 => SetItem::AssignMap(self.expr()),
            _ => SetItem::Labels(self.many(Rng::text)),
        }
    }

    fn remove_item(&mut self) -> RemoveItem {
        match self.flag() {
            true => RemoveItem::Property(self.expr()),
            false => RemoveItem::Labels(self.many(Rng::text)),
        }
    }

    fn pattern(&mut self) -> Pattern {
        Pattern { parts: self.many(|rng| Part { elements: rng.many(Rng::element) }) }
    }

    fn element(&mut self) -> Element {
        let kind = if self.flag() { ElementKind::Node } else { ElementKind::Rel };
        let (span, names) = (self.span(), self.many(Rng::text));
        let props = self.maybe(|rng| Expr::Map(rng.many(Rng::pair)));
        let props = if self.below(4) == 0 { self.maybe(Rng::expr) } else { props };
        Element { kind, span, names, props }
    }

    fn pair(&mut self) -> (String, Expr) {
        (self.text(), self.expr())
    }

    fn boxed(&mut self) -> Box<Expr> {
        Box::new(self.expr())
    }

    /// Small, or once in 300 a chain around the limit of depth.
    fn expr(&mut self) -> Expr {
        if self.below(300) == 0 {
            let links = 50 + self.below(20);
            return (0..links).fold(Expr::Null, |inner, _| Expr::IsNull(Box::new(inner)));
        }
        if self.left == 0 || self.below(3) == 0 {
            return self.leaf();
        }
        self.left -= 1;
        self.nesting()
    }

    fn leaf(&mut self) -> Expr {
        use Expr::*;
        let leaves =
            [Null, Bool, Int, Float, String, Var, Param, Unresolved, ExistsSubqueryDeferred];
        leaves[self.below(9) as usize].clone()
    }

    fn nesting(&mut self) -> Expr {
        match self.below(16) {
            0 => Expr::Prop { target: self.boxed(), prop: self.text() },
            1 => Expr::Index { target: self.boxed(), index: self.boxed() },
            2 => Expr::BinOp { lhs: self.boxed(), rhs: self.boxed() },
            3 => Expr::InList { operand: self.boxed(), list: self.boxed() },
            4 => Expr::UnaryOp(self.boxed()),
            5 => Expr::IsNull(self.boxed()),
            6 => Expr::List(self.many(Rng::expr)),
            7 => Expr::Map(self.many(Rng::pair)),
            8 => Expr::Call { name: self.text(), args: self.many(Rng::expr) },
            9 => Expr::PatternPredicate(self.pattern()),
            10 => Expr::MapProjection { base: self.boxed(), items: self.many(Rng::map_item) },
            _ => self.with_parts(),
        }
    }

    fn with_parts(&mut self) -> Expr {
        let (first, second, last) = (self.boxed(), self.maybe(Rng::boxed), self.maybe(Rng::boxed));
        match self.below(5) {
            0 => Expr::Slice { target: first, start: second, end: last },
            1 => Expr::Case {
                scrutinee: second,
                arms: self.many(|rng| (rng.expr(), rng.expr())),
                otherwise: last,
            },
            2 => Expr::PatternComprehension {
                pattern: self.pattern(),
                filter: second,
                map_expr: first,
            },
            3 => {
                Expr::ListComprehension { iterable: self.boxed(), filter: second, map_expr: first }
            }
            _ => Expr::ListPredicate { iterable: first, predicate: second },
        }
    }

    fn map_item(&mut self) -> MapItem {
        match self.below(4) {
            0 => MapItem::Computed { key: self.text(), value: self.expr() },
            1 => MapItem::Aliased { key: self.text(), value: self.expr() },
            2 => MapItem::PropCopy(self.text()),
            _ => MapItem::VarShorthand(self.text()),
        }
    }

    fn schema(&mut self) -> Schema {
        Schema { declarations: self.many(Rng::declaration) }
    }

    fn declaration(&mut self) -> Declaration {
        let name = self.text();
        match self.below(6) {
            0 => Declaration::Label { name, items: self.many(Rng::label_item) },
            1 => Declaration::RelType { name, items: self.many(Rng::rel_type_item) },
            2 => {
                let ty = self.ty();
                Declaration::Parameter { name, ty, default: self.maybe(Rng::text) }
            }
            3 => {
                let parameters = self.parameters();
                Declaration::Function { name, parameters, variadic: self.flag() }
            }
            4 => Declaration::Procedure { name, parameters: self.parameters() },
            _ => Declaration::Apart(name, self.text()),
        }
    }

    /// Few, or once in ten any number.
    fn parameters(&mut self) -> u32 {
        if self.below(10) == 0 {
            return self.draw() as u32;
        }
        self.below(4) as u32
    }

    fn ty(&mut self) -> PropertyType {
        use BaseType::*;
        let bases = [String, Int, Float, Bool, Date, Datetime, Enum, Opaque, Any];
        let lists = if self.below(20) == 0 { 60 + self.below(8) } else { self.below(3) };
        PropertyType { base: bases[self.below(9) as usize], lists: lists as u32 }
    }

    fn property(&mut self) -> Property {
        Property { name: self.text(), ty: self.ty(), required: self.flag() }
    }

    fn label_item(&mut self) -> LabelItem {
        match self.flag() {
            true => LabelItem::Property(self.property()),
            false => LabelItem::Tuple(self.many(Rng::text)),
        }
    }

    fn rel_type_item(&mut self) -> RelTypeItem {
        match self.below(4) {
            0 => RelTypeItem::Property(self.property()),
            1 => RelTypeItem::Tuple(self.many(Rng::text)),
            2 => RelTypeItem::Start(self.text()),
            _ => RelTypeItem::End(self.text()),
        }
    }
}

/// All kinds of a sheet that was encoded.
fn kinds(sheet: &[u8]) -> impl Iterator<Item = u8> {
    tokens(sheet).into_iter().map(|(kind, _)| kind)
}

#[test]
fn statements() {
    let (mut seen, mut errors) = (BTreeSet::new(), BTreeSet::new());
    for seed in 0..3_000 {
        let statement = Rng::new(seed, [3, 20, 80, 1_500][seed as usize % 4]).statement();
        match encode_statement(&statement) {
            Ok(bytes) => {
                assert_eq!(read_statement(&bytes), Ok(()), "seed {seed}");
                let thin = encode_thin_statement(&statement).expect("the other kind encodes");
                assert_eq!(read_statement(&thin), Ok(()), "seed {seed}");
                converted(thin_statement_sheet, &bytes, &thin);
                seen.extend(kinds(&bytes));
            }
            Err(error) => {
                assert_eq!(encode_thin_statement(&statement), Err(error));
                errors.insert(word(error));
            }
        }
    }
    let all = (1..=14).chain(16..=30).chain([50, 51]).chain(60..=63).chain(70..=85).chain([90]);
    assert_eq!(seen, all.collect());
    assert_eq!(errors, BTreeSet::from(["EndBelowStart", "TooDeep", "TooManyTokens"]));
}

#[test]
fn schemas() {
    let (mut seen, mut errors) = (BTreeSet::new(), BTreeSet::new());
    let (mut accepted, mut refused) = (0, BTreeSet::new());
    for seed in 0..6_000 {
        let schema = Rng::new(seed, 0).schema();
        let bytes = match encode_schema(&schema) {
            Ok(bytes) => bytes,
            Err(error) => {
                errors.insert(word(error));
                continue;
            }
        };
        let thin = encode_thin_schema(&schema).expect("the other kind encodes");
        assert_eq!(read_schema(&thin), read_schema(&bytes));
        match read_schema(&bytes) {
            Ok(()) => {
                converted(thin_schema_sheet, &bytes, &thin);
                accepted += 1;
            }
            Err(refusal) => {
                assert_eq!(thin_schema_sheet(&bytes), Err(refusal));
                refused.insert(refusal.number);
            }
        }
        seen.extend(kinds(&bytes));
    }
    let all = [50].into_iter().chain(100..=106).chain(110..=113).chain(120..=128);
    assert_eq!(seen, all.collect());
    assert_eq!(errors, BTreeSet::from(["TooManyLists", "TooManyParameters"]));
    assert_eq!(refused, (10..=13).collect());
    assert!(accepted > 3_000, "{accepted}");
}

/// Converted, a sheet is the one that the encoder writes in the thin kind, byte for byte; once more, it stays; and it is
/// never longer.
fn converted(convert: fn(&[u8]) -> Result<Vec<u8>, Refusal>, sheet: &[u8], thin: &[u8]) {
    assert_eq!(convert(sheet).as_deref(), Ok(thin));
    assert_eq!(convert(thin).as_deref(), Ok(thin));
    assert!(thin.len() <= sheet.len());
}

fn word(error: EncodeError) -> &'static str {
    match error {
        EncodeError::TooManyTokens => "TooManyTokens",
        EncodeError::TooManyNames => "TooManyNames",
        EncodeError::TooMuchText => "TooMuchText",
        EncodeError::TooDeep => "TooDeep",
        EncodeError::EndBelowStart(_) => "EndBelowStart",
        EncodeError::TooManyLists(_) => "TooManyLists",
        EncodeError::TooManyParameters(_) => "TooManyParameters",
    }
}

/// Pairs of sheets that encode, of few texts, so that much of a statement is declared.
fn pairs() -> impl Iterator<Item = (Vec<u8>, Vec<u8>)> {
    (0..2_000).filter_map(|seed| {
        let mut rng = Rng { texts: &TEXTS[..3], ..Rng::new(seed, 20) };
        let pair = (encode_statement(&rng.statement()), encode_schema(&rng.schema()));
        Some((pair.0.ok()?, pair.1.ok()?))
    })
}

fn numbers(item: &Diagnostic) -> [u32; 7] {
    let Diagnostic { code, span, owner, stage, ordinal, clause } = *item;
    [code, span.start, span.end, owner, stage, ordinal, clause]
}

/// The iterator gives what the operations give, one by one.
#[test]
fn diagnostics_of_pairs() {
    let mut codes = BTreeSet::new();
    for (statement, schema) in pairs() {
        let found = match diagnostics(&statement, &schema) {
            Ok(found) => found,
            Err(refusal) => {
                assert_eq!(read_schema(&schema), Err(refusal));
                continue;
            }
        };
        let mut exactly = vec![0; 7 * found.len()];
        assert_eq!(check(&statement, &schema, &mut exactly), Ok(found.len() as u32));
        for (k, (item, text)) in found.enumerate() {
            assert_eq!(exactly[7 * k..][..7], numbers(&item));
            assert_eq!(message_text(&statement, &schema, k as u32), Ok(text));
            codes.insert(item.code);
        }
    }
    let all = [3001, 3002, 3003, 3004, 3006, 3007, 3008, 3009, 4023];
    assert_eq!(codes, BTreeSet::from(all));
}

/// The margin list has the same items with the same messages, sorted by start, equal ones as they stood; refused as
/// the check.
#[test]
fn margins_of_pairs() {
    let (mut moved, mut refused) = (0, 0);
    for (statement, schema) in pairs() {
        let found = match diagnostics(&statement, &schema) {
            Ok(found) => found,
            Err(refusal) => {
                assert_eq!(margin(&statement, &schema).err(), Some(refusal));
                refused += 1;
                continue;
            }
        };
        let listed: Vec<(Diagnostic, String)> = found.collect();
        let in_margin = margin(&statement, &schema).expect("accepted by the check");
        let mut exactly = vec![0; 7 * listed.len()];
        assert_eq!(margin_list(&statement, &schema, &mut exactly), Ok(listed.len() as u32));
        assert_eq!(in_margin.items().iter().flat_map(numbers).collect::<Vec<_>>(), exactly);
        let in_margin: Vec<(Diagnostic, String)> = in_margin.collect();
        let mut sorted = listed.clone();
        sorted.sort_by_key(|(item, _)| item.span.start);
        assert_eq!(in_margin, sorted);
        moved += u32::from(in_margin != listed);
    }
    assert!(moved > 100 && refused > 100, "{moved} in another order, {refused} refused");
}

/// Thin sheets draw the same lists and messages, also one of each kind in a call.
#[test]
fn thin_sheets_of_pairs() {
    let mut items = 0;
    for (statement, schema) in pairs() {
        let listed =
            |statement: &[u8], schema: &[u8]| -> Result<Vec<(Diagnostic, String)>, Refusal> {
                Ok(diagnostics(statement, schema)?.collect())
            };
        let Ok(expected) = listed(&statement, &schema) else { continue };
        let thin = thin_statement_sheet(&statement).expect("accepted by the check");
        let thin_schema = thin_schema_sheet(&schema).expect("accepted by the check");
        for (statement, schema) in
            [(&thin, &schema), (&statement, &thin_schema), (&thin, &thin_schema)]
        {
            assert_eq!(listed(statement, schema).as_ref(), Ok(&expected));
        }
        items += expected.len();
    }
    assert!(items > 1_000, "{items}");
}

/// Messages longer than the first buffer, each longer than the one before.
#[test]
fn long_messages() {
    let call = |k: usize| Expr::Call { name: "f".repeat(1 << k), args: vec![] };
    let statement = Statement { clauses: vec![Clause::Return((0..14).map(call).collect())] };
    let statement = encode_statement(&statement).expect("16,383 bytes of names");
    let schema = encode_schema(&Schema::default()).expect("no declaration");
    let found = diagnostics(&statement, &schema).expect("an accepted pair");
    let texts: Vec<String> = found.map(|(_, text)| text).collect();
    let expected = (0..14).map(|k| format!("unknown function `{}`", "f".repeat(1 << k)));
    assert_eq!(texts, expected.collect::<Vec<_>>());
    let past = Err(Refusal { number: 15, sheet: nurbellat::Sheet::Neither, place: 0 });
    assert_eq!(message_text(&statement, &schema, 14), past);
}
