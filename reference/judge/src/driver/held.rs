//! The original's steps one by one, on what is held ready: for timing.

use std::collections::HashSet;

use super::{
    super::{Node, Renderer, fmt_parsed},
    Layout, Notes, Stop, Texts,
    decode::{Shadow, decode},
};
use crate::{mode, rows::Row, rule, tree::Input, width};

/// `fmt_parsed` itself.
pub fn format(input: &Input) -> String {
    fmt_parsed(&input.ast, &input.files, &input.spans, &input.extras)
}

/// A document as the original holds it.
pub struct Held<'s>(Vec<Node<'s>>);

impl<'s> Held<'s> {
    /// The layout half of `fmt_parsed`.
    pub fn lay_out(input: &'s Input) -> Self {
        let mut layout = Layout::new(input, Stop::default(), rule::SUPPLIED);
        layout.shebang();
        for place in 0..input.declarations() {
            layout.declaration(place);
        }
        layout.close(mode::OLD);
        Held(layout.nodes)
    }

    /// Rows as nodes, which must have passed the row check; their texts are
    /// kept by the caller.
    pub fn of_rows(texts: &'s HeldTexts, rows: &[Row]) -> Self {
        Held(decode(&texts.0, rows, 0, rows.len()))
    }

    /// The rendering half of `fmt_parsed`.
    pub fn render(&self) -> String {
        let mut renderer = Renderer {
            buf: String::new(),
            indent: 0,
            next_indent: 0,
            notes: Notes::default(),
            column: 0,
            greatest: 0,
            max: width::REFERENCE,
            wrapped: HashSet::new(),
        };
        for node in &self.0 {
            renderer.render_node(node, true);
        }
        renderer.buf
    }
}

/// Texts that held rows point into; each must be UTF-8.
pub struct HeldTexts(Shadow);

impl HeldTexts {
    pub fn new(texts: Texts) -> Self {
        let own = |bytes: &[u8]| {
            String::from_utf8(bytes.to_vec()).expect("UTF-8")
        };
        let Texts {
            source,
            image,
            words,
        } = texts;
        HeldTexts(Shadow([source, image, words].map(own)))
    }
}
