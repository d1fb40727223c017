//! The shapes of src/parser, with the judge's small parser in the place of
//! Roto's, or a tree that was handed in.

use std::{cell::RefCell, fmt};

use judge::{ast::SyntaxTree, image, reader, script, tree::Input};

pub use judge::parser::{Extras, meta};
use meta::{Span, Spans};

#[derive(Clone, Debug)]
pub struct ParseError {
    pub location: Span,
    pub kind: ParseErrorKind,
    pub note: Option<String>,
    pub hints: Vec<Hint>,
}

#[derive(Clone, Debug)]
pub struct Hint {
    pub location: Span,
    pub text: String,
}

#[derive(Clone, Debug)]
pub enum ParseErrorKind {
    FailedToParseEntireInput,
    Custom { description: String, label: String },
}

impl ParseErrorKind {
    pub fn label(&self) -> String {
        match self {
            Self::FailedToParseEntireInput => "parser got stuck here".into(),
            Self::Custom { label, .. } => label.clone(),
        }
    }
}

impl fmt::Display for ParseErrorKind {
    fn fmt(&self, f: &mut fmt::Formatter<'_>) -> fmt::Result {
        match self {
            Self::FailedToParseEntireInput => {
                f.write_str("failed to parse entire input")
            }
            Self::Custom { description, .. } => f.write_str(description),
        }
    }
}

/// What a parser gives.
pub struct Parsed {
    pub ast: SyntaxTree,
    pub spans: Spans,
    pub extras: Extras,
}

thread_local! {
    static NEXT: RefCell<Option<Parsed>> = const { RefCell::new(None) };
}

/// The next text is taken for this one, on this thread.
pub fn parse_next_as(parsed: Parsed) {
    NEXT.set(Some(parsed));
}

pub struct Parser;

impl Parser {
    pub fn parse(
        file: usize,
        spans: &mut Spans,
        input: &str,
    ) -> Result<(SyntaxTree, Extras), Box<ParseError>> {
        let parsed = match NEXT.take() {
            Some(parsed) => parsed,
            None => parsed(file, input)?,
        };
        *spans = parsed.spans;
        Ok((parsed.ast, parsed.extras))
    }
}

fn parsed(file: usize, input: &str) -> Result<Parsed, Box<ParseError>> {
    let stuck = |at| ParseError {
        location: Span::new(file, at..at),
        kind: ParseErrorKind::FailedToParseEntireInput,
        note: None,
        hints: Vec::new(),
    };
    let (comments, tree) = script::read(input).map_err(stuck)?;
    // Names point into the image, for as long as the tree is kept.
    let image = image::write(&comments, &tree).leak();
    let accepted = reader::read(input.as_bytes(), image);
    let Input {
        ast, spans, extras, ..
    } = Input::new(&accepted.map_err(|_| stuck(0))?, image);
    Ok(Parsed { ast, spans, extras })
}
