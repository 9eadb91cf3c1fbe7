//! A plain text notation of sheets: one token per line, `kind value` or
//! `name "text"`, indented or not, `#` and what follows it ignored on a line
//! of its own. A kind is its number or its word in the grammar's table.

use crate::grammar::{RULES, rule_of};
use crate::sheet::{Which, read_form};
use crate::tree::Raw;

/// The sheet of a notation. A repeated text is one name; `name own "text"`
/// gives it one more number of its own.
pub fn encode(text: &str) -> Result<Vec<u8>, String> {
    let mut raw = Raw::default();
    for (number, line) in text.lines().enumerate() {
        let line = line.trim();
        if line.is_empty() || line.starts_with('#') {
            continue;
        }
        let token = match line.strip_prefix("name") {
            Some(rest) => name(&mut raw.names, rest.trim()),
            None => token(line),
        };
        raw.tokens.push(token.ok_or(format!("line {}: {line}", number + 1))?);
    }
    Ok(raw.bytes())
}

fn token(line: &str) -> Option<(u8, u32)> {
    let mut words = line.split_whitespace();
    let kind = words.next()?;
    let by_word = RULES.iter().find(|rule| rule.word == kind).map(|rule| rule.kind);
    let kind = by_word.or_else(|| kind.parse().ok())?;
    let value = words.next().map_or(Some(0), |value| value.parse().ok())?;
    words.next().is_none().then_some((kind, value))
}

fn name(names: &mut Vec<Vec<u8>>, rest: &str) -> Option<(u8, u32)> {
    let own = rest.strip_prefix("own").map(str::trim);
    let quoted = own.unwrap_or(rest);
    let text = quoted.strip_prefix('"')?.strip_suffix('"')?.as_bytes();
    let known = names.iter().position(|name| name == text).filter(|_| own.is_none());
    let number = known.unwrap_or_else(|| {
        names.push(text.to_vec());
        names.len() - 1
    });
    Some((50, number as u32))
}

/// The tokens of a sheet, indented by depth, or why it is refused.
pub fn show(bytes: &[u8]) -> String {
    let schema = bytes.get(12) == Some(&100);
    let which = if schema { Which::Schema } else { Which::Statement };
    let sheet = match read_form(bytes, which) {
        Ok(sheet) => sheet,
        Err(refusal) => {
            let (number, place) = (refusal.number, refusal.place);
            return format!("# refused {number} at {place}\n");
        }
    };
    let mut out = String::new();
    for token in &sheet.tokens {
        out += &"  ".repeat(token.depth as usize);
        out += &match token.kind {
            50 => format!("name \"{}\"\n", sheet.names[token.value as usize]),
            kind => format!("{} {}\n", rule_of(kind).map_or("?", |rule| rule.word), token.value),
        };
    }
    out
}
