//! What a list of steps says, one step after another: the records that are
//! open are kept on a stack, and each step is tested against the last.

use std::ops::Range;

use super::{Step, list::Unread};
use crate::{
    grammar::{self, Child, Payload, Place},
    image::{Tree, node},
    reader::{MOST_COMMENTS, MOST_DEPTH, Reading, comes_after},
};

/// Why 16 is given.
#[derive(Clone, Copy, Debug, PartialEq, Eq, PartialOrd, Ord)]
pub enum Cause {
    /// Its first byte isn't 1 to 6.
    Unknown,
    /// The list ends within it.
    CutOff,
    /// The 8,193rd comment.
    CommentTooMany,
    CommentEmpty,
    CommentReversed,
    /// One that starts before the end of the one before (request 10).
    CommentUnordered,
    /// A comment after the first other step.
    CommentLate,
    /// A kind that may not stand there.
    KindWrong,
    SpanReversed,
    /// The 65th level.
    TooDeep,
    /// A record where no child is left to give.
    ChildSpare,
    /// A text in a record that isn't a text's, or a second one.
    TextElsewhere,
    TextNotUtf8,
    /// A payload byte in a record that has none.
    PayloadElsewhere,
    PayloadTwice,
    PayloadTooLarge,
    /// Another step where a payload byte or a text is due.
    PayloadMissing,
    /// Absent, in a place that isn't marked `?`.
    AbsentWrong,
    /// Closed before all of its children are given.
    ClosedEarly,
    /// Text, payload byte, absent or close, where no record is open yet.
    NothingOpen,
    /// A step after the tree is closed.
    AfterTheEnd,
    /// The list's end while something is missing.
    ListEnds,
}

impl Cause {
    pub const ALL: [(Cause, &str); 22] = [
        (Cause::Unknown, "unknown step"),
        (Cause::CutOff, "cut off"),
        (Cause::CommentTooMany, "8,193rd comment"),
        (Cause::CommentEmpty, "empty comment"),
        (Cause::CommentReversed, "reversed comment"),
        (
            Cause::CommentUnordered,
            "comment before the end of the one before",
        ),
        (Cause::CommentLate, "comment after another step"),
        (Cause::KindWrong, "kind wrong there"),
        (Cause::SpanReversed, "reversed span"),
        (Cause::TooDeep, "65 deep"),
        (Cause::ChildSpare, "no child left to give"),
        (Cause::TextElsewhere, "text elsewhere"),
        (Cause::TextNotUtf8, "text not UTF-8"),
        (Cause::PayloadElsewhere, "payload elsewhere"),
        (Cause::PayloadTwice, "payload twice"),
        (Cause::PayloadTooLarge, "payload too large"),
        (Cause::PayloadMissing, "payload missing"),
        (Cause::AbsentWrong, "absent where not marked"),
        (Cause::ClosedEarly, "closed too early"),
        (Cause::NothingOpen, "nothing open yet"),
        (Cause::AfterTheEnd, "step after the tree is closed"),
        (Cause::ListEnds, "the list's end"),
    ];
}

/// A list that 16 turns down, with the offset of its first step at fault.
#[derive(Clone, Copy, Debug, PartialEq, Eq)]
pub struct Fault {
    pub cause: Cause,
    pub place: usize,
}

/// What a list says.
#[derive(Clone, Debug, PartialEq, Eq)]
pub struct Contents {
    pub comments: Vec<Range<usize>>,
    pub tree: Tree,
}

/// Follows a list to its end, or to the first step at fault.
pub fn follow(list: &[u8]) -> Result<Contents, Fault> {
    follow_by(list, Reading::Strict)
}

/// The same where comments may be in any order, if they are not read strictly.
pub fn follow_by(list: &[u8], reading: Reading) -> Result<Contents, Fault> {
    let mut writer = Writer::new(reading);
    let mut place = 0;
    while place < list.len() {
        let fault = |cause| Fault { cause, place };
        let (step, length) = match Step::first(&list[place..]) {
            Ok(found) => found,
            Err(Unread::Unknown) => return Err(fault(Cause::Unknown)),
            Err(Unread::CutOff) => return Err(fault(Cause::CutOff)),
        };
        writer.take(step).map_err(fault)?;
        place += length;
    }
    let comments = writer.comments;
    let cause = Cause::ListEnds;
    let tree = writer.tree.ok_or(Fault { cause, place })?;
    Ok(Contents { comments, tree })
}

/// What was said so far.
struct Writer {
    reading: Reading,
    comments: Vec<Range<usize>>,
    /// Records that are not closed yet, outermost first.
    open: Vec<Open>,
    /// The tree, once it is closed.
    tree: Option<Tree>,
}

struct Open {
    record: Tree,
    payload: Payload,
    children: &'static [Child],
}

impl Open {
    /// Whether its payload is still to be given.
    fn wants_payload(&self) -> bool {
        self.payload != Payload::Nothing && self.record.payload.is_empty()
    }

    /// What stands next among its children: `*` goes on for ever.
    fn next(&self) -> Option<Child> {
        let given = self.record.children.len();
        let many = self.children.last().copied();
        let many = many.filter(|last| matches!(last, Child::Many(_)));
        self.children.get(given).copied().or(many)
    }
}

impl Writer {
    fn new(reading: Reading) -> Self {
        Writer {
            reading,
            comments: Vec::new(),
            open: Vec::new(),
            tree: None,
        }
    }

    fn take(&mut self, step: Step) -> Result<(), Cause> {
        if self.tree.is_some() {
            return Err(Cause::AfterTheEnd);
        }
        match step {
            Step::Comment { start, end } => self.comment(span(start, end)),
            Step::Open { kind, start, end } => {
                self.opened(kind, span(start, end))
            }
            Step::Text { width, text } => self.text(width, &text),
            Step::Payload(byte) => self.payload(byte),
            Step::Absent => self.absent(),
            Step::Close => self.close(),
        }
    }

    fn comment(&mut self, span: Range<usize>) -> Result<(), Cause> {
        if !self.open.is_empty() {
            return Err(Cause::CommentLate);
        }
        if self.comments.len() == MOST_COMMENTS {
            return Err(Cause::CommentTooMany);
        }
        if span.start == span.end {
            return Err(Cause::CommentEmpty);
        }
        if span.start > span.end {
            return Err(Cause::CommentReversed);
        }
        let strict = self.reading == Reading::Strict;
        if strict && !comes_after(&self.comments, &span) {
            return Err(Cause::CommentUnordered);
        }
        self.comments.push(span);
        Ok(())
    }

    fn opened(&mut self, kind: u8, span: Range<usize>) -> Result<(), Cause> {
        let place = match self.open.last() {
            None => grammar::TREE,
            Some(_) => match self.child()? {
                Child::One(place) | Child::Maybe(place) => place,
                Child::Many(place) => place,
            },
        };
        if !grammar::kinds(place).contains(&kind) {
            return Err(Cause::KindWrong);
        }
        if span.start > span.end {
            return Err(Cause::SpanReversed);
        }
        if self.open.len() == MOST_DEPTH {
            return Err(Cause::TooDeep);
        }
        self.open.push(begun(kind, place, span));
        Ok(())
    }

    /// The child that the innermost record takes next.
    fn child(&self) -> Result<Child, Cause> {
        let last = self.open.last().ok_or(Cause::NothingOpen)?;
        if last.wants_payload() {
            return Err(Cause::PayloadMissing);
        }
        last.next().ok_or(Cause::ChildSpare)
    }

    fn text(&mut self, width: u16, text: &[u8]) -> Result<(), Cause> {
        let last = self.open.last_mut().ok_or(Cause::NothingOpen)?;
        match last.payload {
            Payload::Text if last.wants_payload() => {}
            Payload::Byte(_) if last.wants_payload() => {
                return Err(Cause::PayloadMissing);
            }
            _ => return Err(Cause::TextElsewhere),
        }
        if std::str::from_utf8(text).is_err() {
            return Err(Cause::TextNotUtf8);
        }
        last.record.payload = [&width.to_be_bytes(), text].concat();
        Ok(())
    }

    fn payload(&mut self, byte: u8) -> Result<(), Cause> {
        let last = self.open.last_mut().ok_or(Cause::NothingOpen)?;
        match last.payload {
            Payload::Byte(_) if !last.wants_payload() => {
                Err(Cause::PayloadTwice)
            }
            Payload::Byte(most) if byte > most => Err(Cause::PayloadTooLarge),
            Payload::Byte(_) => {
                last.record.payload.push(byte);
                Ok(())
            }
            Payload::Text if last.wants_payload() => {
                Err(Cause::PayloadMissing)
            }
            _ => Err(Cause::PayloadElsewhere),
        }
    }

    fn absent(&mut self) -> Result<(), Cause> {
        let Child::Maybe(_) = self.child()? else {
            return Err(Cause::AbsentWrong);
        };
        let last = self.open.last_mut().ok_or(Cause::NothingOpen)?;
        last.record.children.push(None);
        Ok(())
    }

    fn close(&mut self) -> Result<(), Cause> {
        let last = self.open.last().ok_or(Cause::NothingOpen)?;
        if last.wants_payload() {
            return Err(Cause::PayloadMissing);
        }
        if let Some(Child::One(_) | Child::Maybe(_)) = last.next() {
            return Err(Cause::ClosedEarly);
        }
        let record = self.open.pop().map(|open| open.record);
        match self.open.last_mut() {
            Some(parent) => parent.record.children.push(record),
            None => self.tree = record,
        }
        Ok(())
    }
}

fn span(start: u32, end: u32) -> Range<usize> {
    start as usize..end as usize
}

/// A record of which nothing but kind and span is given.
fn begun(kind: u8, place: Place, span: Range<usize>) -> Open {
    Open {
        record: node(kind, span, []),
        payload: grammar::payload(kind, place),
        children: grammar::children(kind, place),
    }
}
