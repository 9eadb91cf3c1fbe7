//! Shows that the comparison notices: changed rules, one at a time, on a copy
//! of the published sources or of this workspace, each built and run.

use std::path::{Path, PathBuf};
use std::process::Command;
use std::{env, fs};

const CHECK: &str = "src/crates/cyrs-sema/src/schema_aware.rs";
const STORE: &str = "src/crates/cyrs-schema/src/in_memory.rs";
const ITEMS: &str = "oracle/oracle/src/items.rs";
const FOLDED: &str = "oracle/oracle/src/folded.rs";
const MESSAGES: &str = "oracle/oracle/src/messages.rs";
const SHEET: &str = "oracle/oracle/src/sheet.rs";
const ANSWERS: &str = "oracle/oracle/src/store_answers.rs";
const PROVIDER: &str = "oracle/oracle/src/store.rs";
const MARGIN: &str = "oracle/oracle/src/margin.rs";
const ROWS: &str = "oracle/oracle/src/rows.rs";
const JOIN: &str = "oracle/oracle/src/join.rs";
const JOIN_RUN: &str = "oracle/oracle/src/join_run.rs";
const THIN: &str = "oracle/oracle/src/thin.rs";

/// One changed rule: a text that stands once in a file, and its replacement.
pub struct Change {
    pub rule: &'static str,
    file: &'static str,
    from: &'static str,
    to: &'static str,
}

const fn change(
    rule: &'static str,
    file: &'static str,
    from: &'static str,
    to: &'static str,
) -> Change {
    Change { rule, file, from, to }
}

impl Change {
    /// The file as it is before the change.
    fn original(&self) -> String {
        let path = match self.file.strip_prefix("oracle/") {
            Some(file) => sources::workspace().join(file),
            None => sources::folder().join(&self.file["src/".len()..]),
        };
        fs::read_to_string(path).expect("the original")
    }

    /// Whether its rule has the text, or it is the name of its file.
    fn is_about(&self, text: &str) -> bool {
        self.rule.contains(text) || self.file.ends_with(text)
    }

    /// Whether the text to change stands exactly once.
    pub fn applies(&self) -> bool {
        self.original().matches(self.from).count() == 1
    }
}

pub const CHANGES: &[Change] = &[
    change(
        "patterns in comprehensions are skipped",
        CHECK,
        "                self.check_pattern(pattern, false);\n                if let Some(f) = filter {",
        "                let _ = pattern;\n                if let Some(f) = filter {",
    ),
    change(
        "Int passes for Float",
        CHECK,
        "| (Type::Int, PropertyType::Int)",
        "| (Type::Int, PropertyType::Int | PropertyType::Float)",
    ),
    change(
        "merge keys are checked before the pattern",
        CHECK,
        "                self.check_pattern(pattern, true);\n                self.check_merge_keys(pattern);",
        "                self.check_merge_keys(pattern);\n                self.check_pattern(pattern, true);",
    ),
    change(
        "repeated keys are merged",
        CHECK,
        "        for (key, val_expr) in pairs {\n            // Find",
        "        let pairs: std::collections::BTreeMap<_, _> = pairs.iter().map(|p| (&p.0, &p.1)).collect();\n        for (key, val_expr) in pairs {\n            // Find",
    ),
    change(
        "patterns nested in predicates create",
        CHECK,
        "self.check_pattern(pat, false);",
        "self.check_pattern(pat, true);",
    ),
    change(
        "an empty tuple backs nothing",
        CHECK,
        ".any(|tuple| tuple.iter().all(",
        ".any(|tuple| !tuple.is_empty() && tuple.iter().all(",
    ),
    change(
        "RETURN's LIMIT is looked at",
        CHECK,
        "            Clause::Return { projections, .. } => {",
        "            Clause::Return { projections, limit, .. } => {\n                limit.iter().for_each(|e| self.check_expr(e));",
    ),
    change(
        "a variadic function wants one argument more",
        CHECK,
        "n_args >= required",
        "n_args > required",
    ),
    change(
        "a list takes the type of its first literal",
        CHECK,
        "infer_literal_type(items.first()?)?",
        "items.iter().find_map(infer_literal_type)?",
    ),
    change(
        "the last duplicate label is named, not the first",
        STORE,
        "self.duplicate_label.get_or_insert(name);",
        "self.duplicate_label = Some(name);",
    ),
    change(
        "endpoints are end-major",
        STORE,
        "        for from in &r.start_labels {\n            for to in &r.end_labels {",
        "        for to in &r.end_labels {\n            for from in &r.start_labels {",
    ),
    change(
        "a RelType's ends feed the digest in place of its starts",
        STORE,
        "            for l in &r.start_labels {\n                fnv1a_64_str(&mut h, \"s:\");",
        "            for l in &r.end_labels {\n                fnv1a_64_str(&mut h, \"s:\");",
    ),
    change(
        "01's side compares name numbers, not texts",
        ITEMS,
        ".find(|token| goes_by(kind, schema.text(schema.kids(*token)[0]), name))",
        ".find(|token| schema.names.iter().position(|n| goes_by(kind, n, name)) == Some(schema.value(schema.kids(*token)[0]) as usize))",
    ),
    change(
        "01's side does not put E3009 last",
        ITEMS,
        "(clause, code == 3009, owner, stage, ordinal)",
        "(clause, code == 0, owner, stage, ordinal)",
    ),
    change(
        "01's side takes any pattern below a MERGE for the MERGE's own",
        ITEMS,
        "clauses.contains(&self.statement.kind(up(up(up(element)))))",
        "{ let _ = up; clauses.contains(&self.statement.kind(clause_of(self.statement, element))) }",
    ),
    change(
        "01's side looks at 300 names of a tuple",
        ITEMS,
        "self.schema.texts_under(tuple).iter().all(",
        "self.schema.texts_under(tuple).iter().take(300).all(",
    ),
    change(
        "01's side looks at 300 keys of a merge",
        ITEMS,
        "let keys = self.statement.texts_under(map);",
        "let mut keys = self.statement.texts_under(map); keys.truncate(300);",
    ),
    change(
        "01's side looks at 300 Aparts",
        ITEMS,
        "for apart in self.schema.kids_of_kind(0, 106) {",
        "for apart in self.schema.kids_of_kind(0, 106).into_iter().take(300) {",
    ),
    change(
        "01's side looks at 200 properties of a label",
        ITEMS,
        "for item in schema.kids_of_kind(declared, 110) {",
        "for item in schema.kids_of_kind(declared, 110).into_iter().take(200) {",
    ),
    change(
        "01's side looks for a key in 100 labels",
        ITEMS,
        "for name in statement.texts_under(element) {",
        "for name in statement.texts_under(element).into_iter().take(100) {",
    ),
    change(
        "02's side counts clauses from 1",
        ITEMS,
        "**before < clause).count() as u32",
        "**before < clause).count() as u32 + 1",
    ),
    change(
        "02's side gives an item the next clause, where there is one",
        ITEMS,
        "**before < clause).count() as u32",
        "**before <= clause).count().min(statement.kids(0).len() - 1) as u32",
    ),
    change(
        "02's side takes a CALL for a part of the clause before it",
        ITEMS,
        "let clause = clause_of(statement, token);",
        "let clause = clause_of(statement, token - 1);",
    ),
    change(
        "02's side folds no function's name",
        FOLDED,
        "one.bytes().map(lower).eq(other.bytes().map(lower))",
        "{ let _ = lower; one == other }",
    ),
    change(
        "02's side folds the name that is declared alone",
        FOLDED,
        ".eq(other.bytes().map(lower))",
        ".eq(other.bytes())",
    ),
    change("02's side folds [ as {", FOLDED, "b'A'..=b'Z' =>", "b'A'..=b'[' =>"),
    change("02's side folds @ as `", FOLDED, "b'A'..=b'Z' =>", "b'@'..=b'Z' =>"),
    change("02's side does not fold Z", FOLDED, "b'A'..=b'Z' =>", "b'A'..=b'Y' =>"),
    change(
        "02's side takes no notice of the bit in which cases differ",
        FOLDED,
        "b'A'..=b'Z' => byte - b'A' + b'a',",
        "0..0x80 => byte | 0x20,",
    ),
    change(
        "02's side folds all letters that have cases",
        FOLDED,
        "one.bytes().map(lower).eq(other.bytes().map(lower))",
        "{ let _ = lower; one.to_lowercase() == other.to_lowercase() }",
    ),
    change(
        "02's side folds procedures too",
        ITEMS,
        "104 => same_folded",
        "104 | 105 => same_folded",
    ),
    change("02's side folds labels too", ITEMS, "104 => same_folded", "104 | 101 => same_folded"),
    change("02's side folds types too", ITEMS, "104 => same_folded", "104 | 102 => same_folded"),
    change(
        "02's side folds keys too",
        ITEMS,
        "if schema.text(schema.kids(item)[0]) == key {",
        "if same_folded(schema.text(schema.kids(item)[0]), key) {",
    ),
    change(
        "02's side folds tuples too",
        ITEMS,
        ".all(|name| keys.contains(name))",
        ".all(|name| keys.iter().any(|key| same_folded(key, name)))",
    ),
    change(
        "02's side folds Aparts too",
        ITEMS,
        "if names.contains(&pair[0]) && names.contains(&pair[1]) {",
        "if pair.iter().all(|one| names.iter().any(|name| same_folded(name, one))) {",
    ),
    change(
        "02's side takes the last function of a folded name",
        ITEMS,
        ".find(|token| goes_by(kind, schema.text(schema.kids(*token)[0]), name))",
        ".filter(|token| goes_by(kind, schema.text(schema.kids(*token)[0]), name))\n\
         .reduce(|first, last| if kind == 104 { last } else { first })",
    ),
    change(
        "02's side takes a function that is spelt so before an earlier one",
        ITEMS,
        "    declared\n        .filter(|token| schema.kind(*token) == kind)\n",
        "    let spelt = |token: &usize| schema.text(schema.kids(*token)[0]) == name;\n\
         let mut of_kind = declared.clone().filter(|token| schema.kind(*token) == kind);\n\
         if let Some(token) = of_kind.find(spelt) { return Some(token); }\n\
         declared\n        .filter(|token| schema.kind(*token) == kind)\n",
    ),
    change(
        "02's side refuses labels, types and parameters that differ in case",
        SHEET,
        "if seen.contains(&name) {",
        "if seen.iter().any(|other| other.eq_ignore_ascii_case(name)) {",
    ),
    change(
        "02's side refuses an Apart of names that differ in case",
        SHEET,
        "pair[0] == pair[1]",
        "pair[0].eq_ignore_ascii_case(pair[1])",
    ),
    change(
        "02's side has names in order without their case",
        ANSWERS,
        "schema.text(schema.kids(*token)[0]).as_bytes());",
        "schema.text(schema.kids(*token)[0]).to_ascii_lowercase());",
    ),
    change(
        "02's side has an unknown function in lower case",
        MESSAGES,
        "3006 => quoted(\"unknown function `\", writer.name(0)),",
        "3006 => vec![\"unknown function `\".into(), writer.name(0).to_ascii_lowercase().into(), \"`\".into()],",
    ),
    change(
        "02's side has a function of other arguments in lower case",
        MESSAGES,
        "            self.name(0).into(),\n",
        "            if function { self.name(0).to_ascii_lowercase().into() } else { self.name(0).into() },\n",
    ),
    change(
        "02's side has a function of other arguments as it is declared",
        MESSAGES,
        "            self.name(0).into(),\n",
        "            self.schema.text(self.schema.kids(found)[0]).into(),\n",
    ),
    change(
        "02's side has keys of a MERGE that differ in case once",
        MESSAGES,
        "let keys: BTreeSet<&str> = self.statement.texts_under(map).into_iter().collect();",
        "let mut keys: BTreeSet<&str> = self.statement.texts_under(map).into_iter().collect();\n\
         let mut seen = BTreeSet::new();\n\
         keys.retain(|key| seen.insert(key.to_ascii_lowercase()));",
    ),
    change(
        "the provider folds no function's name",
        PROVIDER,
        "store_by(str::to_ascii_lowercase, sheet)",
        "store_by(str::to_owned, sheet)",
    ),
    change(
        "the provider folds all letters that have cases",
        PROVIDER,
        "store_by(str::to_ascii_lowercase, sheet)",
        "store_by(str::to_lowercase, sheet)",
    ),
    change(
        "the provider takes the last function of a folded name",
        PROVIDER,
        "self.functions.iter().find(",
        "self.functions.iter().rev().find(",
    ),
    change(
        "the provider folds procedures too",
        PROVIDER,
        "self.procedures.iter().find(|(n, _)| n == name)?",
        "self.procedures.iter().find(|(n, _)| n.eq_ignore_ascii_case(name))?",
    ),
    change("02's side has the margin list by end", MARGIN, "item.start]", "item.end]"),
    change("02's side has starts of 0 last", MARGIN, "item.start]", "item.start.wrapping_sub(1)]"),
    change("02's side takes 16 bits of a start", MARGIN, "item.start]", "item.start & 0xffff]"),
    change("02's side has the margin list as the check's", MARGIN, "key(item)", "{ key(item); 0 }"),
    change(
        "02's side has equal starts in reverse",
        MARGIN,
        "items.to_vec();",
        "items.iter().rev().copied().collect::<Vec<_>>();",
    ),
    change(
        "02's side takes 19 digits for an Int",
        ROWS,
        "INT_DIGITS: usize = 18",
        "INT_DIGITS: usize = 19",
    ),
    change(
        "02's side takes a point without digits behind it for a Float",
        ROWS,
        "is_number(whole) && is_number(fraction)",
        "is_number(whole) && (fraction.is_empty() || is_number(fraction))",
    ),
    change("02's side takes a quoted cell as it stands", ROWS, "_ if cell.quoted => STRING,", ""),
    change("02's side takes a tab for text", ROWS, "0x20..=0x21 |", "0x09 | 0x20..=0x21 |"),
    change("02's side takes 7F for text", ROWS, "0x2d..=0x7e |", "0x2d..=0x7f |"),
    change(
        "02's side ends a line with LF alone",
        ROWS,
        "[] => Ok(at),",
        "[] => Ok(at), [b'\\n', ..] => Ok(at + 1),",
    ),
    change(
        "02's side opens a row behind the last line end",
        ROWS,
        "        rows.push(row);\n    }\n",
        "        rows.push(row);\n    }\n    if text.ends_with(b\"\\r\\n\") { rows.push(record(b\"\", 0)?); }\n",
    ),
    change(
        "02's side leaves quotes doubled",
        ROWS,
        "content.push(b'\"')",
        "content.extend(b\"\\\"\\\"\")",
    ),
    change(
        "02's side looks at the limits before UTF-8",
        ROWS,
        "    all_utf8(&names)?;\n",
        "    within_limits(&names, row.start, row.stop)?;\n    all_utf8(&names)?;\n",
    ),
    change(
        "02's side has the line end in the span",
        ROWS,
        "within_limits(&names, row.start, row.stop)?",
        "within_limits(&names, row.start, row.next)?",
    ),
    change(
        "02's side joins without moving the second's names",
        JOIN,
        "clause_tokens(second, names)",
        "clause_tokens(second, names - names)",
    ),
    change(
        "02's side joins without moving the second's ends",
        JOIN,
        "ends_from(second, bytes)",
        "ends_from(second, bytes - bytes)",
    ),
    change(
        "02's side moves Numbers too when it joins",
        JOIN,
        "NAME => (NAME, token.value + names_before),",
        "NAME | 51 => (token.kind, token.value + names_before),",
    ),
    change(
        "02's side joins without summing the clauses",
        JOIN,
        "first.value(0) + second.value(0)",
        "first.value(0).max(second.value(0))",
    ),
    change(
        "02's side joins the second's clauses before the first's",
        JOIN,
        "    tokens.extend(clause_tokens(first, 0));\n    tokens.extend(clause_tokens(second, names));\n",
        "    tokens.extend(clause_tokens(second, names));\n    tokens.extend(clause_tokens(first, 0));\n",
    ),
    change(
        "02's side merges equal texts when it joins",
        JOIN,
        "    let sheet = joined(&first, &second);\n",
        "    let sheet = crate::tree::Tree::of(&read_statement(&joined(&first, &second))?).raw().bytes();\n",
    ),
    change(
        "02's side counts a token 0 for each of the joined sheets",
        JOIN,
        "[t + more_t - 1, m + more_m, b + more_b]",
        "[t + more_t, m + more_m, b + more_b]",
    ),
    change(
        "02's side joins to one token too many",
        JOIN,
        "= [MAX_TOKENS, MAX_NAMES, MAX_TEXT]",
        "= [MAX_TOKENS + 1, MAX_NAMES, MAX_TEXT]",
    ),
    change(
        "02's side joins to one name too many",
        JOIN,
        "= [MAX_TOKENS, MAX_NAMES, MAX_TEXT]",
        "= [MAX_TOKENS, MAX_NAMES + 1, MAX_TEXT]",
    ),
    change(
        "02's side joins to one byte of text too many",
        JOIN,
        "= [MAX_TOKENS, MAX_NAMES, MAX_TEXT]",
        "= [MAX_TOKENS, MAX_NAMES, MAX_TEXT + 1]",
    ),
    change(
        "02's side refuses to join only past all limits at once",
        JOIN,
        "zip(LIMITS).any(",
        "zip(LIMITS).all(",
    ),
    change(
        "02's side looks at the joined sheet's sizes before the second's refusals",
        JOIN,
        "    let second = read_second(second)?;\n",
        "    if let Some(sizes) = second.get(..12) {\n\
             let size = |i: usize| u32::from(sizes[4 * i]) + 256 * u32::from(sizes[4 * i + 1]);\n\
             let [t, m, b] = self::sizes(&first);\n\
             within_limits([t + size(0) - 1, m + size(1), b + size(2)])?;\n\
         }\n\
         let second = read_second(second)?;\n",
    ),
    change(
        "02's side looks at the second sheet to join before the first",
        JOIN,
        "    let first = read_statement(first)?;\n",
        "    read_second(second)?;\n    let first = read_statement(first)?;\n",
    ),
    change(
        "02's side takes the second sheet to join for sheet 1",
        JOIN,
        "Refusal { sheet: 2, ..refusal }",
        "Refusal { sheet: 1, ..refusal }",
    ),
    change(
        "02's side looks at the buffer before the joined sheet's sizes",
        JOIN,
        "    within_limits(joined_sizes(&first, &second))?;\n",
        "    fits(joined(&first, &second).len(), room)?;\n    within_limits(joined_sizes(&first, &second))?;\n",
    ),
    change(
        "owners of a joined list are moved by all tokens of the first",
        JOIN_RUN,
        "first.tokens.len() as u32 - 1",
        "first.tokens.len() as u32",
    ),
    change(
        "clauses of a joined list are not moved",
        JOIN_RUN,
        "clause: item.clause + clauses",
        "clause: item.clause + clauses - clauses",
    ),
    change(
        "02's side joins thin sheets to a thin one",
        JOIN,
        "    let first = read_statement(first)?;\n",
        "    if crate::sheet::SheetKind::of(first) == crate::sheet::SheetKind::Thin {\n\
             let joined = join_statements(&crate::tree::Raw::of(&read_statement(first)?).bytes(), second, room)?;\n\
             return crate::thin::thin_statement(&joined, room);\n\
         }\n\
         let first = read_statement(first)?;\n",
    ),
    change(
        "02's side counts the mark of a thin sheet among its tokens",
        SHEET,
        "sizes[0] & !THIN_MARK",
        "sizes[0]",
    ),
    change(
        "02's side takes the second highest bit for the mark",
        SHEET,
        "THIN_MARK: u32 = 1 << 31",
        "THIN_MARK: u32 = 1 << 30",
    ),
    change(
        "02's side wants four bytes for each end of a thin sheet",
        SHEET,
        "bytes.len() != 12 + 5 * t + width * m + b",
        "bytes.len() != 12 + 5 * t + 4 * m + b",
    ),
    change(
        "02's side takes any length of a thin sheet that has room for it",
        SHEET,
        "bytes.len() != 12 + 5 * t + width * m + b",
        "bytes.len() < 12 + 5 * t + width * m + b || (width == 4 && bytes.len() != 12 + 5 * t + 4 * m + b)",
    ),
    change(
        "02's side takes a thin sheet without tokens",
        SHEET,
        "(1..=MAX_TOKENS).contains(&tokens)",
        "(1 - sizes[0] / THIN_MARK..=MAX_TOKENS).contains(&tokens)",
    ),
    change(
        "02's side takes a thin sheet of a token too many",
        SHEET,
        "(1..=MAX_TOKENS).contains(&tokens)",
        "(1..=MAX_TOKENS + sizes[0] / THIN_MARK).contains(&tokens)",
    ),
    change(
        "02's side cuts the ends of a thin sheet at 15 bits",
        SHEET,
        ".map(number).collect();",
        ".map(|end| if width == 2 { number(end) & 0x7fff } else { number(end) }).collect();",
    ),
    change(
        "02's side takes 16 bits of an end of the first kind",
        SHEET,
        ".map(number).collect();",
        ".map(|end| number(&end[..2])).collect();",
    ),
    change(
        "02's side reads the ends of a thin sheet high byte first",
        SHEET,
        ".map(number).collect();",
        ".map(|end| if width == 2 { number(&[end[1], end[0]]) } else { number(end) }).collect();",
    ),
    change(
        "02's side writes a thin sheet without its mark",
        THIN,
        "[t | TOP_BIT, m, b]",
        "[t, m, b]",
    ),
    change(
        "02's side writes four bytes for each end of a thin sheet",
        THIN,
        "flat_map(u16::to_le_bytes)",
        "flat_map(|end| u32::from(end).to_le_bytes())",
    ),
    change(
        "02's side cuts the ends that it converts at 15 bits",
        THIN,
        "end += name.len() as u16;",
        "end = (end + name.len() as u16) & 0x7fff;",
    ),
    change(
        "02's side merges equal texts when it converts",
        THIN,
        "SheetKind::First => written(sheet),",
        "SheetKind::First => {\n\
             let once = crate::tree::Tree::of(sheet).raw().bytes();\n\
             let schema = sheet.kind(0) == 100;\n\
             written(&if schema { read_schema(&once)? } else { read_statement(&once)? })\n\
         }",
    ),
    change(
        "02's side does not copy a thin sheet as it is",
        THIN,
        "SheetKind::Thin => bytes.to_vec(),",
        "SheetKind::Thin => crate::tree::Raw::of(sheet).bytes(),",
    ),
    change(
        "02's side looks at the buffer before the refusals of a sheet to convert",
        THIN,
        "    let sheet = read_statement(bytes)?;\n",
        "    if SheetKind::of(bytes) == SheetKind::Thin { fits(bytes.len(), room)?; }\n\
         let sheet = read_statement(bytes)?;\n",
    ),
    change(
        "02's side wants the room of the sheet that it converts",
        THIN,
        "fits(thin.len(), room)",
        "fits(bytes.len(), room)",
    ),
    change(
        "02's side takes a schema to convert for sheet 1",
        THIN,
        "read_schema(bytes)?",
        "read_schema(bytes).map_err(|refusal| Refusal { sheet: 1, ..refusal })?",
    ),
    change(
        "02's side converts schemas that declare something again",
        THIN,
        "read_schema(bytes)?",
        "crate::sheet::read_form(bytes, crate::sheet::Which::Schema)?",
    ),
];

/// Tries every change that is about `only`; true if each was noticed and the
/// unchanged copy passed.
pub fn notice(seed: u64, pairs: u64, only: &str) -> bool {
    let copies = Copies::new();
    let mut all = true;
    let (passes, _) = copies.run(seed, pairs);
    println!("{}: nothing changed", if passes { "no difference" } else { "DIFFERS" });
    all &= passes;
    for change in CHANGES.iter().filter(|change| change.is_about(only)) {
        copies.apply(change);
        let (passes, first_line) = copies.run(seed, pairs);
        copies.restore(change);
        println!("{}: {}", if passes { "NOT NOTICED" } else { "noticed" }, change.rule);
        println!("    {first_line}");
        all &= !passes;
    }
    all
}

/// Copies of the published sources and of this workspace, below `target`.
struct Copies {
    folder: PathBuf,
}

impl Copies {
    fn new() -> Self {
        let workspace = sources::workspace();
        let folder = workspace.join("target/notice");
        copy_tree(&sources::folder(), &folder.join("src"));
        for part in ["stand-ins", "published", "oracle", "both", "Cargo.toml", "Cargo.lock"] {
            copy_tree(&workspace.join(part), &folder.join("oracle").join(part));
        }
        // Not built here, but cargo reads the manifest of every member's dependency.
        for part in ["Cargo.toml", "build.rs", "src"] {
            copy_tree(&workspace.join("../bridge").join(part), &folder.join("bridge").join(part));
        }
        Copies { folder }
    }

    fn apply(&self, change: &Change) {
        assert!(change.applies(), "{}: {}", change.file, change.rule);
        let text = change.original().replace(change.from, change.to);
        fs::write(self.folder.join(change.file), text).expect("write");
    }

    fn restore(&self, change: &Change) {
        fs::write(self.folder.join(change.file), change.original()).expect("write");
    }

    /// Builds the copy and runs it: whether it passed, and what it said first.
    fn run(&self, seed: u64, pairs: u64) -> (bool, String) {
        let output = Command::new(env::var("CARGO").unwrap_or_else(|_| "cargo".into()))
            .current_dir(self.folder.join("oracle"))
            .env(
                sources::FOLDER_VARIABLE,
                fs::canonicalize(self.folder.join("src")).expect("the copy"),
            )
            .env("CARGO_TARGET_DIR", "../target")
            .args(["run", "--offline", "-j1", "--quiet", "--release", "--", "run"])
            .args(["--seed", &seed.to_string(), "--pairs", &pairs.to_string()])
            .output()
            .expect("cargo");
        let said = String::from_utf8_lossy(&output.stdout).into_owned();
        let differs = said.lines().find(|line| line.starts_with("smallest:"));
        let first = differs.or(said.lines().next()).unwrap_or_default().to_owned();
        let built = output.status.success() || said.starts_with("difference");
        let errors = String::from_utf8_lossy(&output.stderr);
        assert!(built, "the copy does not build or run: {errors}");
        (output.status.success(), first)
    }
}

fn copy_tree(from: &Path, to: &Path) {
    if !from.is_dir() {
        fs::create_dir_all(to.parent().expect("a parent")).expect("create");
        fs::write(to, fs::read(from).expect("read")).expect("write");
        return;
    }
    for entry in fs::read_dir(from).expect("a folder") {
        let entry = entry.expect("an entry");
        copy_tree(&entry.path(), &to.join(entry.file_name()));
    }
}
