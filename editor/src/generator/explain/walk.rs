//! A list of steps, followed as far as it is right.

use super::{
    super::{
        Step,
        grammar::{Child, Payload, Place, Times, children, kinds, payload},
    },
    Due,
};
use crate::{
    kind::TREE,
    limits::{MAX_COMMENTS, MAX_DEPTH},
};

/// A record that is open.
struct Open {
    kind: u8,
    /// What it must get first.
    payload: Payload,
    children: &'static [Child],
    /// Which of them comes next.
    next: usize,
    /// How many it has, absent ones included.
    had: usize,
}

/// How far a list was followed.
#[derive(Default)]
pub(super) struct Walk {
    open: Vec<Open>,
    comments: usize,
    comment_end: usize,
    closed: bool,
}

impl Walk {
    pub(super) fn kinds(&self) -> Vec<u8> {
        self.open.iter().map(|record| record.kind).collect()
    }

    pub(super) fn children(&self) -> usize {
        self.open.last().map_or(0, |record| record.had)
    }

    /// Goes behind a step.
    pub(super) fn follow(&mut self, step: &Step) {
        match step {
            Step::Comment { span } => {
                self.comments += 1;
                self.comment_end = span.end;
            }
            Step::Open { kind, .. } => {
                let place = self.place();
                self.had_child();
                self.open.push(Open {
                    kind: *kind,
                    payload: payload(*kind, place),
                    children: children(*kind, place),
                    next: 0,
                    had: 0,
                });
            }
            Step::Text { .. } | Step::Payload(_) => {
                if let Some(record) = self.open.last_mut() {
                    record.payload = Payload::Nothing;
                }
            }
            Step::Absent => self.had_child(),
            Step::Close => {
                self.open.pop();
                self.closed = self.open.is_empty();
            }
        }
    }

    /// The child that comes next, if a record is open that may have one.
    fn next(&self) -> Option<Child> {
        let record = self.open.last()?;
        record.children.get(record.next).copied()
    }

    /// Where a record that is opened stands.
    fn place(&self) -> Place {
        self.next().map_or(Place::Kind(TREE), |child| child.place)
    }

    fn had_child(&mut self) {
        let many =
            self.next().is_some_and(|child| child.times == Times::Many);
        if let Some(record) = self.open.last_mut() {
            record.had += 1;
            record.next += usize::from(!many);
        }
    }

    /// What may come next.
    pub(super) fn due(&self) -> Due {
        let due = Due::default();
        let Some(record) = self.open.last() else {
            return match self.closed {
                true => Due { end: true, ..due },
                false => Due {
                    role: "tree",
                    kinds: vec![TREE],
                    comment: true,
                    ..due
                },
            };
        };
        match (record.payload, self.next()) {
            (Payload::Text, _) => Due { text: true, ..due },
            (Payload::Byte(most), _) => Due {
                payload: Some(most),
                ..due
            },
            (Payload::Nothing, None) => Due { close: true, ..due },
            (Payload::Nothing, Some(child)) => Due {
                role: child.role,
                kinds: kinds(child.place),
                absent: child.times == Times::Maybe,
                close: child.times == Times::Many,
                ..due
            },
        }
    }

    /// What is wrong with a step, if it is of a sort that is due.
    pub(super) fn fault(&self, step: &Step) -> Option<&'static str> {
        let due = self.due();
        match step {
            Step::Comment { span } if due.comment => {
                if self.comments >= MAX_COMMENTS {
                    Some("it is the 8,193rd comment")
                } else if span.start >= span.end {
                    Some("it is empty or reversed")
                } else if span.start < self.comment_end {
                    Some("it starts before the end of the one before")
                } else {
                    None
                }
            }
            Step::Open { kind, span } if due.kinds.contains(kind) => {
                if span.start > span.end {
                    Some("its span is reversed")
                } else if self.open.len() >= MAX_DEPTH {
                    Some("it is the 65th record in each other")
                } else {
                    None
                }
            }
            Step::Payload(byte)
                if due.payload.is_some_and(|it| *byte > it) =>
            {
                Some("the byte is too large")
            }
            _ => None,
        }
    }
}
