//! Stand-in for the crate `cyrs-syntax`, which is in no listed source. The
//! published HIR names its types; the check reads none but the span, which
//! document 01 fixes as two u32.

/// An offset into the statement's text.
#[derive(Clone, Copy, Debug, PartialEq, Eq, PartialOrd, Ord, Hash)]
pub struct TextSize(u32);

impl TextSize {
    pub const fn new(offset: u32) -> Self {
        TextSize(offset)
    }
}

impl From<TextSize> for u32 {
    fn from(offset: TextSize) -> u32 {
        offset.0
    }
}

/// A span: two u32, the end not below the start.
#[derive(Clone, Copy, Debug, PartialEq, Eq, Hash)]
pub struct TextRange {
    start: TextSize,
    end: TextSize,
}

impl TextRange {
    pub fn new(start: TextSize, end: TextSize) -> Self {
        assert!(start <= end, "a span that ends before it starts");
        TextRange { start, end }
    }

    pub fn empty(at: TextSize) -> Self {
        TextRange { start: at, end: at }
    }

    pub fn start(self) -> TextSize {
        self.start
    }

    pub fn end(self) -> TextSize {
        self.end
    }

    pub fn contains_range(self, other: TextRange) -> bool {
        self.start <= other.start && other.end <= self.end
    }
}

/// A node of the concrete syntax; here only its span.
#[derive(Clone, Debug)]
pub struct SyntaxNode(pub TextRange);

impl SyntaxNode {
    pub fn text_range(&self) -> TextRange {
        self.0
    }
}

/// What a parser returns; sheets come lowered, so nothing makes one.
#[derive(Clone, Debug)]
pub enum Parse {}

/// A parser's error; sheets come lowered, so nothing makes one.
#[derive(Clone, Debug)]
pub enum SyntaxError {}
