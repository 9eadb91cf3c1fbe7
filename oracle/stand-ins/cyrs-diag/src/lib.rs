//! Stand-in for the crate `cyrs-diag`, which is in no listed source. As
//! document 01 says: push appends to a list, a span is two u32.

use cyrs_syntax::TextRange;

/// The codes that the schema-aware pass emits.
#[derive(Clone, Copy, Debug, PartialEq, Eq)]
pub enum DiagCode {
    E3001 = 3001,
    E3002 = 3002,
    E3003 = 3003,
    E3004 = 3004,
    E3006 = 3006,
    E3007 = 3007,
    E3008 = 3008,
    E3009 = 3009,
    E4023 = 4023,
}

#[derive(Clone, Debug)]
pub struct Diagnostic {
    pub code: DiagCode,
    pub span: TextRange,
    pub message: String,
}

impl Diagnostic {
    pub fn error(code: DiagCode, span: TextRange, message: String) -> Self {
        Diagnostic { code, span, message }
    }
}

/// The list that the pass pushes to.
#[derive(Clone, Debug, Default)]
pub struct DiagnosticsSink {
    pub list: Vec<Diagnostic>,
}

impl DiagnosticsSink {
    pub fn push(&mut self, diagnostic: Diagnostic) {
        self.list.push(diagnostic);
    }
}
