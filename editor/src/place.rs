//! Where something is in a source, for people.

use std::fmt;

use crate::ast::Span;

/// A span with line and column of its start, both counted from 1, the column
/// in characters.
#[derive(Clone, Debug, PartialEq, Eq)]
#[non_exhaustive]
pub struct Place {
    /// The bytes that it is about. They need not lie in the source.
    pub span: Span,
    /// The line of the first byte, or the last line if it is past the end.
    pub line: usize,
    /// The column of the first byte, or the one behind the end.
    pub column: usize,
}

impl Place {
    /// Where this span starts in a source.
    pub fn new(source: &[u8], span: Span) -> Self {
        Start::default().of(source, span)
    }

    /// Where each of some spans starts. The source is gone over once, if they
    /// are in order.
    pub(crate) fn all(source: &[u8], spans: Vec<Span>) -> Vec<Self> {
        let mut start = Start::default();
        let place = |span: Span| {
            if span.start < start.byte {
                start = Start::default();
            }
            start.of(source, span)
        };
        spans.into_iter().map(place).collect()
    }
}

/// How far a source was gone over: so many lines and, on the last, so many
/// characters.
#[derive(Default)]
struct Start {
    byte: usize,
    newlines: usize,
    characters: usize,
}

impl Start {
    /// Goes on to a span that doesn't start before.
    fn of(&mut self, source: &[u8], span: Span) -> Place {
        let end = span.start.min(source.len());
        let passed = &source[self.byte..end];
        self.byte = end;
        self.newlines += passed.iter().filter(|it| **it == b'\n').count();
        let newline = passed.iter().rposition(|byte| *byte == b'\n');
        let line = match newline {
            None => passed,
            Some(at) => {
                self.characters = 0;
                &passed[at + 1..]
            }
        };
        let starts_character = |byte: &&u8| **byte & 0xC0 != 0x80;
        self.characters += line.iter().filter(starts_character).count();
        Place {
            line: 1 + self.newlines,
            column: 1 + self.characters,
            span,
        }
    }
}

impl fmt::Display for Place {
    fn fmt(&self, f: &mut fmt::Formatter<'_>) -> fmt::Result {
        write!(f, "line {}, column {}", self.line, self.column)
    }
}
