//! Tokens and names on their way into a sheet.
use super::{EncodeError, MAX_DEPTH, MAX_NAMES, MAX_TEXT, MAX_TOKENS};
use crate::{SheetKind, Span};
use std::collections::HashMap;

type Written = Result<(), EncodeError>;

/// A value that becomes a token and what belongs to it.
pub(super) trait Token {
    fn kind(&self) -> u8;
    fn value(&self) -> Result<u32, EncodeError>;
    /// Writes what belongs to it, in document 01's order.
    fn children<'a>(&'a self, out: &mut Writer<'a>) -> Written;
}

/// The sheet of a value with all that belongs to it, in one of the kinds.
pub(super) fn sheet(root: &impl Token, kind: SheetKind) -> Result<Vec<u8>, EncodeError> {
    let mut writer = Writer::default();
    writer.write(root)?;
    Ok(writer.bytes(kind))
}

/// How many there are, each a token or more. So many that no sheet holds them are refused here, and no value of a
/// token overflows.
pub(super) fn count<T>(things: &[T]) -> Result<u32, EncodeError> {
    let count = u32::try_from(things.len()).ok().filter(|count| *count < MAX_TOKENS);
    count.ok_or(EncodeError::TooManyTokens)
}

/// A flag as a value has it.
pub(super) fn flag<T>(part: &Option<T>) -> u32 {
    u32::from(part.is_some())
}

#[derive(Default)]
pub(super) struct Writer<'a> {
    kinds: Vec<u8>,
    values: Vec<u8>,
    numbers: HashMap<&'a str, u32>,
    ends: Vec<u32>,
    text: Vec<u8>,
    depth: u32,
}

impl<'a> Writer<'a> {
    /// A token and what belongs to it, one deeper. The depth is tested before the children, so no value nests the
    /// calls deeper than a sheet.
    pub fn write(&mut self, token: &'a impl Token) -> Written {
        self.token(token.kind(), token.value()?)?;
        self.depth += 1;
        token.children(self)?;
        self.depth -= 1;
        Ok(())
    }

    pub fn write_all<T: Token + 'a>(&mut self, tokens: impl IntoIterator<Item = &'a T>) -> Written {
        tokens.into_iter().try_for_each(|token| self.write(token))
    }

    pub fn name(&mut self, text: &'a str) -> Written {
        let number = self.number(text)?;
        self.token(50, number)
    }

    pub fn names(&mut self, texts: &'a [String]) -> Written {
        texts.iter().try_for_each(|text| self.name(text))
    }

    pub fn span(&mut self, span: Span) -> Written {
        if span.end < span.start {
            return Err(EncodeError::EndBelowStart(span));
        }
        self.token(51, span.start)?;
        self.token(51, span.end)
    }

    fn token(&mut self, kind: u8, value: u32) -> Written {
        if self.depth > MAX_DEPTH {
            return Err(EncodeError::TooDeep);
        }
        if self.kinds.len() == MAX_TOKENS as usize {
            return Err(EncodeError::TooManyTokens);
        }
        self.kinds.push(kind);
        self.values.extend(value.to_le_bytes());
        Ok(())
    }

    /// The number of a text: the one it has, or the next.
    fn number(&mut self, text: &'a str) -> Result<u32, EncodeError> {
        if let Some(number) = self.numbers.get(text) {
            return Ok(*number);
        }
        let number = self.numbers.len() as u32;
        if number == MAX_NAMES {
            return Err(EncodeError::TooManyNames);
        }
        if text.len() > MAX_TEXT as usize - self.text.len() {
            return Err(EncodeError::TooMuchText);
        }
        self.numbers.insert(text, number);
        self.text.extend(text.as_bytes());
        self.ends.push(self.text.len() as u32);
        Ok(number)
    }

    /// Sizes, kinds, values, ends, text. No end passes [`MAX_TEXT`], so two bytes suffice for it.
    fn bytes(self, kind: SheetKind) -> Vec<u8> {
        let [tokens, names, text] =
            [self.kinds.len(), self.ends.len(), self.text.len()].map(|size| size as u32);
        let sizes = [tokens | kind.mark(), names, text].into_iter().flat_map(u32::to_le_bytes);
        let width = kind.end_width();
        let ends = self.ends.iter().flat_map(|end| end.to_le_bytes().into_iter().take(width));
        [sizes.collect(), self.kinds, self.values, ends.collect(), self.text].concat()
    }
}
