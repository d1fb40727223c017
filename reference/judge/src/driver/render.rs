//! Runs the real `Renderer` and reads its state off.

use std::collections::HashSet;

use super::{
    super::{Node, Renderer},
    notes::{Note, Notes},
    with_rule,
};
use crate::{rule, width};

/// The three numbers that a rendering carries on.
#[derive(Clone, Copy, Debug, Default, PartialEq, Eq)]
pub struct Pen {
    pub indent: usize,
    pub next_indent: usize,
    pub column: usize,
}

/// What a rendering chooses: the `max` of `Renderer`, and the rule by which
/// it measures `Ascii` texts.
#[derive(Clone, Copy, Debug, PartialEq, Eq)]
pub struct Page {
    pub width: usize,
    pub rule: usize,
}

impl Page {
    /// What `fmt_parsed` has.
    pub const REFERENCE: Page = Page {
        width: width::REFERENCE,
        rule: rule::SUPPLIED,
    };
}

#[derive(Clone, Debug)]
pub struct Rendered {
    pub text: String,
    pub marks: Vec<u8>,
    pub pen: Pen,
    /// The greatest value that `column` was set to, 0 before the first.
    pub greatest_column: usize,
}

/// How far a rendering came.
#[derive(Clone, Debug, PartialEq, Eq)]
pub struct Shown {
    pub pen: Pen,
    /// The bytes written so far.
    pub bytes: usize,
    /// The rows entered so far, 0 in the build for timing.
    pub entered: usize,
    /// The marks in use.
    pub marks: Vec<u8>,
}

/// A `Renderer` that keeps notes.
pub(super) fn renderer(pen: Pen, marks: &[u8], page: Page) -> Renderer {
    Renderer {
        buf: String::new(),
        indent: pen.indent,
        next_indent: pen.next_indent,
        notes: Notes::kept(),
        column: pen.column,
        greatest: 0,
        max: page.width,
        wrapped: wrapped_numbers(marks),
    }
}

pub(super) fn pen_of(renderer: &Renderer) -> Pen {
    Pen {
        indent: renderer.indent,
        next_indent: renderer.next_indent,
        column: renderer.column,
    }
}

/// A `Renderer` under way, with its marks as bytes.
pub(super) struct Rendering {
    renderer: Renderer,
    rule: usize,
    marks_in_use: usize,
}

impl Rendering {
    pub(super) fn new(pen: Pen, marks: &[u8], page: Page) -> Self {
        Rendering {
            renderer: renderer(pen, marks, page),
            rule: page.rule,
            marks_in_use: marks.len(),
        }
    }

    pub(super) fn nodes(&mut self, nodes: &[Node]) {
        with_rule(self.rule, || {
            for node in nodes {
                self.renderer.render_node(node, true);
            }
        });
        let needed = nodes.iter().map(marks_needed).max().unwrap_or(0);
        self.marks_in_use = self.marks_in_use.max(needed);
    }

    pub(super) fn shown(&self) -> Shown {
        Shown {
            pen: self.pen(),
            bytes: self.renderer.buf.len(),
            entered: self.renderer.notes.rows(),
            marks: self.marks(),
        }
    }

    pub(super) fn finish(self) -> Rendered {
        Rendered {
            marks: self.marks(),
            pen: self.pen(),
            greatest_column: self.renderer.greatest,
            text: self.renderer.buf,
        }
    }

    pub(super) fn pen(&self) -> Pen {
        pen_of(&self.renderer)
    }

    pub(super) fn greatest(&self) -> usize {
        self.renderer.greatest
    }

    /// None in the build for timing.
    pub(super) fn notes(&self) -> &[Note] {
        self.renderer.notes.all()
    }

    /// The numbers of the groups that wrapped, ascending.
    pub(super) fn wrapped(&self) -> Vec<usize> {
        let mut all: Vec<_> = self.renderer.wrapped.iter().copied().collect();
        all.sort_unstable();
        all
    }

    fn marks(&self) -> Vec<u8> {
        let mut marks = vec![0; self.marks_in_use];
        for number in &self.renderer.wrapped {
            marks[*number] = 1;
        }
        marks
    }
}

fn wrapped_numbers(marks: &[u8]) -> HashSet<usize> {
    (0..marks.len())
        .filter(|place| marks[*place] == 1)
        .collect()
}

fn marks_needed(node: &Node) -> usize {
    let of_parts =
        |nodes: &[Node]| nodes.iter().map(marks_needed).max().unwrap_or(0);
    match node {
        Node::Group(id, nodes) => of_parts(&nodes.0).max(id + 1),
        Node::Indent(nodes) | Node::IndentNext(nodes) => of_parts(&nodes.0),
        Node::IfWrap(id, first, second) => {
            marks_needed(first).max(marks_needed(second)).max(id + 1)
        }
        Node::Call(callee, e, arguments, a) => of_parts(&e.0)
            .max(of_parts(&a.0))
            .max(callee + 1)
            .max(arguments + 1),
        _ => 0,
    }
}
