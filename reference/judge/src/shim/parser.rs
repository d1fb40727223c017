//! The shapes of src/parser/mod.rs that the formatter uses.

use std::collections::VecDeque;

use crate::ast::SyntaxTree;
use meta::{Span, Spans};

#[path = "../../../roto/src/parser/meta.rs"]
#[allow(dead_code)]
pub mod meta;
#[path = "../../../roto/src/parser/precedence.rs"]
pub mod precedence;

#[derive(Debug)]
pub struct ParseError;

#[derive(Clone, Default)]
pub struct Extras {
    pub comments: VecDeque<Span>,
}

/// Trees come from images; text is never parsed.
pub struct Parser;

impl Parser {
    pub fn parse(
        _file: usize,
        _spans: &mut Spans,
        _input: &str,
    ) -> Result<(SyntaxTree, Extras), Box<ParseError>> {
        Err(Box::new(ParseError))
    }
}
