//! A rendering row by row, from a state that may list open rows: the second
//! form, of which the original has nothing. What a row writes and what a group
//! measures is asked of the original.

use super::{
    super::{Node, Nodes, Renderer},
    decode::{Spelled, decode},
    margin::{is_bounded, is_kept, tried},
    render::{Page, Pen, pen_of, renderer},
    start::{Halt, Start},
    with_rule,
};
use crate::{
    listed::{Listed, OpenRow, Way, closed},
    rows::{self, Row},
};

/// Renders as many rows as are allotted, from where a state stands to the end
/// of these rows.
pub(super) fn render(
    texts: &dyn Spelled,
    rows: &[Row],
    start: Start,
    page: Page,
    allotment: usize,
) -> Halt {
    let next = start.row;
    let open = start.listed.iter().enumerate().map(|(place, open)| {
        let row = &rows[open.row];
        let parted = [rows::IF_WRAP, rows::CALL].contains(&row.kind);
        let inner = &start.listed[place..];
        Open {
            own: *open,
            early: parted && next < row.second_part as usize,
            before: closed(rows, inner, start.pen).expect("23 was asked"),
        }
    });
    let mut going = Going {
        texts,
        rows,
        open: open.collect(),
        renderer: renderer(start.pen, start.marks, page),
        next,
    };
    let entered = with_rule(page.rule, || going.go(allotment));
    going.halt(entered)
}

/// A row that is open.
struct Open {
    own: OpenRow,
    /// Whether its first part of two is.
    early: bool,
    /// What stood there as it was entered; of a row that is handed in, what
    /// would if it were closed at once, which is the same margin.
    before: Pen,
}

struct Going<'g> {
    texts: &'g dyn Spelled,
    rows: &'g [Row],
    open: Vec<Open>,
    renderer: Renderer,
    next: usize,
}

impl<'g> Going<'g> {
    /// Enters rows, and gives how many.
    fn go(&mut self, allotment: usize) -> usize {
        let mut entered = 0;
        loop {
            while self.open.last().is_some_and(|open| self.is_over(open)) {
                self.close();
            }
            let left = !self.open.is_empty() || self.next < self.rows.len();
            if !left || entered == allotment {
                return entered;
            }
            entered += 1;
            self.enter();
        }
    }

    /// Whether the next row is behind a row's open part.
    fn is_over(&self, open: &Open) -> bool {
        let row = &self.rows[open.own.row];
        let end = if open.early { row.second_part } else { row.after };
        self.next >= end as usize
    }

    /// The end of the innermost row's open part.
    fn close(&mut self) {
        let open = self.open.pop().expect("an open row");
        let row = &self.rows[open.own.row];
        let second = row.second_part as usize;
        let OpenRow { wraps, way, .. } = open.own;
        match row.kind {
            rows::CALL if open.early => {
                let number = row.second_number as usize;
                let arguments = self.nodes(second, row.after as usize);
                let wraps = self.group(number, &arguments);
                let own = OpenRow { wraps, ..open.own };
                self.open.push(Open {
                    own,
                    early: false,
                    ..open
                });
                return;
            }
            rows::INDENT if wraps => self.renderer.indent -= 1,
            rows::INDENT_NEXT if wraps => self.step_back(),
            rows::CALL if way == Way::MadeWrapped => self.step_back(),
            _ => {}
        }
        self.next = row.after as usize;
        let done = pen_of(&self.renderer);
        assert!(is_kept(open.before, done), "the margin drifts at a row");
    }

    /// What the end of an `IndentNext` that wraps takes back.
    fn step_back(&mut self) {
        match self.renderer.next_indent {
            0 => self.renderer.indent -= 1,
            _ => self.renderer.next_indent -= 1,
        }
    }

    /// Request 13's sentence on a row as it is entered, for each row around it.
    fn try_margin(&self, entered: Pen) {
        tried();
        let open = self.open.iter().zip((1..=self.open.len()).rev());
        let right = open
            .into_iter()
            .all(|(row, enclosing)| is_bounded(row.before, enclosing, entered));
        assert!(right, "the margin goes too far at a row");
    }

    /// Enters the next row.
    fn enter(&mut self) {
        let place = self.next;
        let before = pen_of(&self.renderer);
        self.try_margin(before);
        let around = self.open.last();
        let wraps = around.is_none_or(|open| open.own.wraps);
        self.next += 1;
        let rows = self.rows;
        let row = &rows[place];
        let after = row.after as usize;
        match row.kind {
            rows::GROUP => {
                let parts = self.nodes(place + 1, after);
                let wraps = self.group(row.number as usize, &parts);
                self.opens(place, wraps, false, before);
            }
            rows::INDENT => {
                self.renderer.indent += usize::from(wraps);
                self.opens(place, wraps, false, before);
            }
            rows::INDENT_NEXT => {
                self.renderer.next_indent += usize::from(wraps);
                self.opens(place, wraps, false, before);
            }
            rows::IF_WRAP => {
                let number = row.number as usize;
                let first = self.renderer.wrapped.contains(&number);
                if !first {
                    self.next = row.second_part as usize;
                }
                self.opens(place, wraps, first, before);
            }
            rows::CALL => self.call(place),
            _ => {
                let leaf = self.nodes(place, after);
                self.renderer.render_node(&leaf[0], wraps);
                let done = pen_of(&self.renderer);
                assert!(is_kept(before, done), "the margin drifts at a leaf");
            }
        }
    }

    /// A row is open, with whether its parts wrap, whether the first of two is
    /// open, and what stood there before.
    fn opens(&mut self, row: usize, wraps: bool, early: bool, before: Pen) {
        let way = Way::Trailing;
        let own = OpenRow { row, wraps, way };
        self.open.push(Open { own, early, before });
    }

    /// Enters a `Call`, and makes up the group around it or around its callee.
    fn call(&mut self, place: usize) {
        let rows = self.rows;
        let row = &rows[place];
        let before = pen_of(&self.renderer);
        let number = row.number as usize;
        let second = row.second_part as usize;
        let callee = self.nodes(place + 1, second);
        let arguments = self.nodes(second, row.after as usize);
        let [callee, arguments] = [callee, arguments].map(Nodes);
        let wrapped = &mut self.renderer.wrapped;
        let [e, a] = [&callee, &arguments].map(|part| part.width(wrapped));
        let (column, max) = (self.column(), self.renderer.max);
        let trails = !(callee.must_wrap() || arguments.must_wrap())
            && column + e + a > max
            && column + e + 1 < max;
        let (wraps, way) = if trails {
            (self.group(number, &callee.0), Way::Trailing)
        } else {
            let mut parts = callee.0;
            let second = row.second_number as usize;
            parts.push(Node::Group(second, arguments));
            let made = [Node::IndentNext(Nodes(parts))];
            match self.group(number, &made) {
                true => {
                    self.renderer.next_indent += 1;
                    (true, Way::MadeWrapped)
                }
                false => (false, Way::MadeFlat),
            }
        };
        let own = OpenRow {
            row: place,
            wraps,
            way,
        };
        self.open.push(Open {
            own,
            early: true,
            before,
        });
    }

    /// Where a text would start, by the original's comment on it.
    fn column(&self) -> usize {
        match self.renderer.column {
            0 => 4 * self.renderer.indent,
            column => column,
        }
    }

    /// Whether a group of these nodes wraps, which sets its mark.
    fn group(&mut self, number: usize, nodes: &[Node]) -> bool {
        let wrapped = &mut self.renderer.wrapped;
        let width: usize = nodes.iter().map(|n| n.width(wrapped)).sum();
        let must_wrap = nodes.iter().any(Node::must_wrap);
        let wraps = must_wrap || self.column() + width > self.renderer.max;
        if wraps {
            self.renderer.wrapped.insert(number);
        }
        wraps
    }

    fn nodes(&self, from: usize, to: usize) -> Vec<Node<'g>> {
        decode(self.texts, self.rows, from, to)
    }

    fn halt(self, entered: usize) -> Halt {
        let open: Vec<OpenRow> =
            self.open.iter().map(|open| open.own).collect();
        let mut wrapped: Vec<usize> =
            self.renderer.wrapped.iter().copied().collect();
        wrapped.sort_unstable();
        let greatest = self.renderer.greatest;
        Halt {
            next_row: self.next,
            listed: Listed::new(&open),
            pen: pen_of(&self.renderer),
            text: self.renderer.buf,
            wrapped,
            greatest,
            entered,
        }
    }
}
