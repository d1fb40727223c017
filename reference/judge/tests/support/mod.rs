//! Small nodes as rows, for tests that speak to the renderer directly.

#![allow(dead_code)]

use judge::{
    allotment::ALL_ROWS,
    driver::{Page, Pen, RenderedRows, Start, Texts, render_rows},
    rows::{self, Row},
};

pub enum N {
    Group(u32, Vec<N>),
    Indent(Vec<N>),
    IndentNext(Vec<N>),
    Comment(&'static str),
    Ascii(&'static str),
    /// So many bytes of `x`.
    Wide(usize),
    /// An `Ascii` of any text.
    Text(String),
    Line,
    EmptyLine,
    LineOrSpace,
    Call(u32, Vec<N>, u32, Vec<N>),
}

/// Renders nodes from a state, and no marks.
pub fn render(nodes: &[N], pen: Pen) -> RenderedRows {
    render_on(nodes, pen, Page::REFERENCE)
}

/// The same with a width.
pub fn render_at(nodes: &[N], pen: Pen, width: usize) -> RenderedRows {
    let page = Page {
        width,
        ..Page::REFERENCE
    };
    render_on(nodes, pen, page)
}

/// The same with a width and a rule.
pub fn render_on(nodes: &[N], pen: Pen, page: Page) -> RenderedRows {
    let mut source = String::new();
    let mut rows = Vec::new();
    put(&mut source, &mut rows, nodes);
    let texts = Texts {
        source: source.as_bytes(),
        image: b"",
        words: b"",
    };
    render_rows(texts, &rows, Start::at(0, pen), page, ALL_ROWS)
}

/// The text of nodes rendered from fresh.
pub fn text(nodes: &[N]) -> String {
    String::from_utf8(render(nodes, Pen::default()).text).unwrap()
}

pub fn pen(indent: usize, column: usize) -> Pen {
    Pen {
        indent,
        next_indent: 0,
        column,
    }
}

fn put(source: &mut String, rows: &mut Vec<Row>, nodes: &[N]) {
    for node in nodes {
        let place = rows.len();
        rows.push(Row::default());
        let mut row = match node {
            N::Group(number, parts) => {
                put(source, rows, parts);
                Row {
                    number: *number,
                    ..of_kind(rows::GROUP)
                }
            }
            N::Indent(parts) => {
                put(source, rows, parts);
                of_kind(rows::INDENT)
            }
            N::IndentNext(parts) => {
                put(source, rows, parts);
                of_kind(rows::INDENT_NEXT)
            }
            N::Call(number, callee, second_number, arguments) => {
                put(source, rows, callee);
                let second_part = rows.len() as u32;
                put(source, rows, arguments);
                Row {
                    number: *number,
                    second_number: *second_number,
                    second_part,
                    ..of_kind(rows::CALL)
                }
            }
            N::Comment(text) => with_text(source, rows::COMMENT, text),
            N::Ascii(text) => with_text(source, rows::ASCII, text),
            N::Wide(count) => {
                with_text(source, rows::ASCII, &"x".repeat(*count))
            }
            N::Text(text) => with_text(source, rows::ASCII, text),
            N::Line => of_kind(rows::LINE),
            N::EmptyLine => of_kind(rows::EMPTY_LINE),
            N::LineOrSpace => of_kind(rows::LINE_OR_SPACE),
        };
        row.after = rows.len() as u32;
        rows[place] = row;
    }
}

fn of_kind(kind: u32) -> Row {
    Row {
        kind,
        ..Row::default()
    }
}

fn with_text(source: &mut String, kind: u32, text: &str) -> Row {
    let start = source.len() as u32;
    source.push_str(text);
    Row {
        start,
        length: text.len() as u32,
        ..of_kind(kind)
    }
}
