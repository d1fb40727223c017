//! Lays a file out declaration by declaration, and flattens it into rows.

use super::{
    super::{Node, Nodes, State, fmt_parsed},
    Run,
    margin::drifts,
    render::{Page, Pen, Rendering, Shown},
    with_choice, with_rule,
};
use crate::{
    choice::Choice,
    mode,
    parser::Extras,
    rows::{self, Row},
    tree::Input,
    unedited,
};

/// How far a layout came, but for the declarations.
#[derive(Clone, Copy, Debug, Default, PartialEq, Eq)]
pub struct Stop {
    pub next_row: usize,
    pub next_number: usize,
    pub comments_placed: usize,
    pub position: usize,
}

/// Runs the formatter. Panics if the driver and `fmt_parsed` disagree.
pub fn run(input: &Input) -> Run {
    run_as(input, Choice::REFERENCE)
}

/// The same with another `max`, mode or rule.
pub fn run_as(input: &Input, choice: Choice) -> Run {
    let Choice { width, mode, rule } = choice;
    let mut layout = Layout::new(input, Stop::default(), rule);
    layout.shebang();
    let mut stops = vec![layout.stop()];
    let mut ends = vec![layout.nodes.len()];
    for place in 0..input.declarations() {
        layout.declaration(place);
        stops.push(layout.stop());
        ends.push(layout.nodes.len());
    }
    layout.close(mode);
    let closed = layout.stop();
    let page = Page { width, rule };
    let (shown, rendering) = rendered(&layout.nodes, &ends, page);
    if cfg!(debug_assertions) {
        let drifting = drifts(rendering.notes(), &layout.rows, 0);
        assert_eq!(drifting, None, "the margin drifts at a row");
    }
    let entered = rendering.shown().entered;
    let rendered = rendering.finish();
    let original = with_choice(choice, || {
        fmt_parsed(&input.ast, &input.files, &input.spans, &input.extras)
    });
    assert_eq!(rendered.text, original, "the driver strays from fmt_parsed");
    if cfg!(debug_assertions) && choice == Choice::REFERENCE {
        let plain = unedited::format(input);
        assert_eq!(original, plain, "the edits change fmt_parsed");
    }
    Run {
        rows: layout.rows,
        stops,
        shown,
        closed,
        comments_left: input.extras.comments.len() - closed.comments_placed,
        text: rendered.text,
        marks: rendered.marks,
        pen: rendered.pen,
        entered,
        greatest_column: rendered.greatest_column,
    }
}

/// Renders all nodes, and says how far it came at each of these ends.
fn rendered(
    nodes: &[Node],
    ends: &[usize],
    page: Page,
) -> (Vec<Shown>, Rendering) {
    let mut rendering = Rendering::new(Pen::default(), &[], page);
    let mut shown = Vec::new();
    let mut from = 0;
    for end in ends {
        rendering.nodes(&nodes[from..*end]);
        shown.push(rendering.shown());
        from = *end;
    }
    rendering.nodes(&nodes[from..]);
    (shown, rendering)
}

/// The layout of `fmt_parsed` taken apart, to start and stop in between.
pub struct Layout<'s> {
    input: &'s Input<'s>,
    /// By which `Str` texts are measured.
    rule: usize,
    pub(super) nodes: Vec<Node<'s>>,
    /// The nodes as rows, as far as [`Layout::stop`] was asked for them.
    pub rows: Vec<Row>,
    first_row: usize,
    nodes_in_rows: usize,
    number: usize,
    position: usize,
    extras: Extras,
}

impl<'s> Layout<'s> {
    /// Goes on from a stop, which must lie within the comments, by a rule.
    pub fn new(input: &'s Input, from: Stop, rule: usize) -> Self {
        let mut extras = input.extras.clone();
        extras.comments.drain(..from.comments_placed);
        Layout {
            input,
            rule,
            nodes: Vec::new(),
            rows: Vec::new(),
            first_row: from.next_row,
            nodes_in_rows: 0,
            number: from.next_number,
            position: from.position,
            extras,
        }
    }

    fn state(&mut self) -> State<'_, 's> {
        State {
            idx: &mut self.number,
            nodes: &mut self.nodes,
            extras: &mut self.extras,
            source: &self.input.files,
            spans: &self.input.spans,
            pos: &mut self.position,
        }
    }

    pub fn shebang(&mut self) {
        if let Some(shebang) = &self.input.ast.shebang {
            let text = || Node::str(shebang.trim_end());
            self.nodes.push(with_rule(self.rule, text));
            self.nodes.push(Node::EmptyLine);
        }
    }

    pub fn declaration(&mut self, place: usize) {
        let declaration = &self.input.ast.declarations[place];
        with_rule(self.rule, || {
            self.state().declaration(declaration, place == 0);
        });
    }

    /// The final `Line`. In the new mode the waiting comments come before it,
    /// and none is left: each starts before the source's end.
    pub fn close(&mut self, mode: usize) {
        if mode == mode::NEW {
            let length = self.input.files.files[0].contents.len();
            let leading = self.input.declarations() > 0;
            self.state().pop_whitespace(length, leading, false, false);
            assert!(self.extras.comments.is_empty(), "all are placed");
            assert_eq!(self.position, length);
        }
        self.nodes.push(Node::Line);
    }

    /// The state here, with all rows up to it written.
    pub fn stop(&mut self) -> Stop {
        let fresh = &self.nodes[self.nodes_in_rows..];
        flatten(self.input, fresh, self.first_row, &mut self.rows);
        self.nodes_in_rows = self.nodes.len();
        Stop {
            next_row: self.first_row + self.rows.len(),
            next_number: self.number,
            comments_placed: self.input.extras.comments.len()
                - self.extras.comments.len(),
            position: self.position,
        }
    }
}

/// Appends nodes as rows in preorder. Row numbers count from the store's
/// start; the first of these rows is `base`.
fn flatten(input: &Input, nodes: &[Node], base: usize, rows: &mut Vec<Row>) {
    for node in nodes {
        let place = rows.len();
        rows.push(own_cells(input, node));
        match node {
            Node::Group(_, Nodes(parts))
            | Node::Indent(Nodes(parts))
            | Node::IndentNext(Nodes(parts)) => {
                flatten(input, parts, base, rows);
            }
            Node::IfWrap(_, first, second) => {
                flatten(input, std::slice::from_ref(first), base, rows);
                rows[place].second_part = number(base + rows.len());
                flatten(input, std::slice::from_ref(second), base, rows);
            }
            Node::Call(_, Nodes(callee), _, Nodes(arguments)) => {
                flatten(input, callee, base, rows);
                rows[place].second_part = number(base + rows.len());
                flatten(input, arguments, base, rows);
            }
            _ => {}
        }
        rows[place].after = number(base + rows.len());
    }
}

/// A row but for its references to other rows.
fn own_cells(input: &Input, node: &Node) -> Row {
    let kind = kind(node);
    match node {
        Node::Group(id, _) | Node::IfWrap(id, _, _) => Row {
            kind,
            number: number(*id),
            ..Row::default()
        },
        Node::Call(callee, _, arguments, _) => Row {
            kind,
            number: number(*callee),
            second_number: number(*arguments),
            ..Row::default()
        },
        Node::Str(width, text) => Row {
            kind,
            width: number(*width),
            ..image_text(input, text)
        },
        Node::Comment(text) | Node::Ascii(text) => Row {
            kind,
            ..source_text_or_word(input, text)
        },
        _ => Row {
            kind,
            ..Row::default()
        },
    }
}

pub(super) fn kind(node: &Node) -> u32 {
    match node {
        Node::Group(..) => rows::GROUP,
        Node::Indent(..) => rows::INDENT,
        Node::IndentNext(..) => rows::INDENT_NEXT,
        Node::WrapParent => rows::WRAP_PARENT,
        Node::Comment(..) => rows::COMMENT,
        Node::Str(..) => rows::STR,
        Node::Ascii(..) => rows::ASCII,
        Node::Line => rows::LINE,
        Node::EmptyLine => rows::EMPTY_LINE,
        Node::LineOrSpace => rows::LINE_OR_SPACE,
        Node::IfWrap(..) => rows::IF_WRAP,
        Node::Call(..) => rows::CALL,
    }
}

fn image_text(input: &Input, text: &str) -> Row {
    text_row(rows::IMAGE, input.image_offset(text), text)
}

fn source_text_or_word(input: &Input, text: &str) -> Row {
    match input.source_offset(text) {
        Some(start) => text_row(rows::SOURCE, start, text),
        None => {
            let start = rows::word_start(text).expect("a listed fixed word");
            text_row(rows::WORDS, start, text)
        }
    }
}

fn text_row(origin: u32, start: usize, text: &str) -> Row {
    Row {
        origin,
        start: number(start),
        length: number(text.len()),
        ..Row::default()
    }
}

fn number(value: usize) -> u32 {
    u32::try_from(value).expect("within the document's sizes")
}
