//! Collects steps and hands them to the proved writer.

use super::{Step, write_image};
use crate::{
    ast::Span,
    image::{COUNT, HEADER},
    kind,
    limits::{MAX_BODY, MAX_COMMENTS, MAX_DEPTH},
    refusal::Refusal,
};

/// Builds an image step by step: comments first, then the tree's record,
/// which holds all others. [`kind`](crate::kind) names the kinds of records,
/// and docs/01-scope.md says what each holds.
///
/// A step that can be told to be wrong without the grammar is turned down at
/// once, and isn't added: a comment that is empty, reversed, before the end of
/// the one before, too late or one too many, a reversed span, a record 65
/// deep, a text or a payload byte that is missing or has no record of its
/// kind, a number that an image has no bytes for, a step outside the tree.
/// Which kinds there are, where they may stand, which payload bytes, and
/// whether a child is missing is for the proved writer to say, by
/// [`check`](Self::check) at any time and by [`finish`](Self::finish) in the
/// end. [`explain`](super::explain) has words for what either says.
#[derive(Clone, Debug)]
pub struct Builder {
    list: Vec<u8>,
    comments: usize,
    /// Where the last comment ends.
    comment_end: usize,
    /// How many records are open.
    depth: usize,
    /// What the record that was just opened must get next.
    due: Due,
    /// Whether the tree is closed.
    closed: bool,
    /// Bytes of the image.
    image: usize,
}

/// A payload that must come next.
#[derive(Clone, Copy, Debug, PartialEq, Eq)]
enum Due {
    Nothing,
    Text,
    Byte,
}

impl Due {
    /// What a record of this kind begins with.
    fn of(kind: u8) -> Self {
        match kind {
            kind::TEXT => Due::Text,
            kind::RETURN | kind::OPERATOR | kind::LITERAL => Due::Byte,
            _ => Due::Nothing,
        }
    }
}

/// No steps yet.
impl Default for Builder {
    fn default() -> Self {
        Builder {
            list: Vec::new(),
            comments: 0,
            comment_end: 0,
            depth: 0,
            due: Due::Nothing,
            closed: false,
            image: HEADER + COUNT,
        }
    }
}

impl Builder {
    /// A builder without steps.
    pub fn new() -> Self {
        Builder::default()
    }

    /// A comment, before all other steps, at or after the end of the one
    /// before.
    ///
    /// # Errors
    ///
    /// Refusal 16 if it is empty or reversed, starts before the end of the one
    /// before, comes too late, is one over 8,192, or has a number over four
    /// bytes.
    pub fn comment(&mut self, span: Span) -> Result<&mut Self, Refusal> {
        self.step(&Step::Comment { span })
    }

    /// A record begins, as a child of the one that is open.
    ///
    /// # Errors
    ///
    /// Refusal 16 if its span is reversed or has a number over four bytes, if
    /// it is the 65th in the others, or if a text or payload byte must come
    /// first.
    pub fn open(
        &mut self,
        kind: u8,
        span: Span,
    ) -> Result<&mut Self, Refusal> {
        self.step(&Step::Open { kind, span })
    }

    /// The text of a [text record](kind::TEXT) that was just opened, with its
    /// width in columns.
    ///
    /// # Errors
    ///
    /// Refusal 16 if no text record was just opened, or the width is over
    /// 65,535; 17 if four bytes don't hold its length.
    pub fn text(
        &mut self,
        text: &str,
        width: usize,
    ) -> Result<&mut Self, Refusal> {
        let text = text.to_owned();
        self.step(&Step::Text { width, text })
    }

    /// The payload byte of a record that was just opened: of a
    /// [return](kind::RETURN), an [operator](kind::OPERATOR) or a [literal's
    /// value](kind::LITERAL).
    ///
    /// # Errors
    ///
    /// Refusal 16 if none was just opened.
    pub fn payload(&mut self, byte: u8) -> Result<&mut Self, Refusal> {
        self.step(&Step::Payload(byte))
    }

    /// A child that is absent.
    ///
    /// # Errors
    ///
    /// Refusal 16 if no record is open, or if a text or payload byte must
    /// come first.
    pub fn absent(&mut self) -> Result<&mut Self, Refusal> {
        self.step(&Step::Absent)
    }

    /// The record that was opened last, and isn't closed yet, ends.
    ///
    /// # Errors
    ///
    /// As [`absent`](Self::absent).
    pub fn close(&mut self) -> Result<&mut Self, Refusal> {
        self.step(&Step::Close)
    }

    /// Any step.
    ///
    /// # Errors
    ///
    /// Refusal 16 with the offset that it would have in the list, or 17, as
    /// the functions above say; but if the proved writer finds a step before
    /// it wrong, 16 with the offset of that one.
    pub fn step(&mut self, step: &Step) -> Result<&mut Self, Refusal> {
        let image = self.image.saturating_add(step.image_bytes());
        if !self.fits(step) || !step.has_bytes() {
            self.check()?;
            let at = self.list.len();
            return Err(Refusal::BadStep { at });
        }
        if step.bytes() > u32::MAX as usize {
            self.check()?;
            return Err(Refusal::MoreRoom { needed: image });
        }
        self.image = image;
        step.append(&mut self.list);
        self.follow(step);
        Ok(self)
    }

    /// Whether a step may come next, as far as that is told without the
    /// grammar.
    fn fits(&self, step: &Step) -> bool {
        let inside = self.depth > 0 && self.due == Due::Nothing;
        match step {
            _ if self.closed => false,
            Step::Comment { span } => {
                self.depth == 0
                    && self.comments < MAX_COMMENTS
                    && span.start < span.end
                    && span.start >= self.comment_end
            }
            Step::Open { span, .. } => {
                self.due == Due::Nothing
                    && self.depth < MAX_DEPTH
                    && span.start <= span.end
            }
            Step::Text { .. } => self.due == Due::Text,
            Step::Payload(_) => self.due == Due::Byte,
            Step::Absent | Step::Close => inside,
        }
    }

    /// What a step that fits changes.
    fn follow(&mut self, step: &Step) {
        match step {
            Step::Comment { span } => {
                self.comments += 1;
                self.comment_end = span.end;
            }
            Step::Open { kind, .. } => {
                self.depth += 1;
                self.due = Due::of(*kind);
            }
            Step::Text { .. } | Step::Payload(_) => self.due = Due::Nothing,
            Step::Absent => {}
            Step::Close => {
                self.depth -= 1;
                self.closed = self.depth == 0;
            }
        }
    }

    /// The steps so far, as the writer reads them. [`Step::at`] gives the
    /// one that a refusal is about.
    pub fn list(&self) -> &[u8] {
        &self.list
    }

    /// Whether the proved writer has nothing against the steps so far. It
    /// reads them all: to find a wrong kind where it is given, call it after
    /// each declaration, or after each step of a small image.
    ///
    /// # Errors
    ///
    /// Refusal 16, with the offset of the first step that is wrong. That
    /// something is still missing is no error.
    pub fn check(&self) -> Result<(), Refusal> {
        match write_image(&self.list, &mut []) {
            Err(refusal @ Refusal::BadStep { at })
                if at < self.list.len() =>
            {
                Err(refusal)
            }
            _ => Ok(()),
        }
    }

    /// The image of the steps.
    ///
    /// # Errors
    ///
    /// Refusal 16, with the offset of the first step that is wrong, or of the
    /// list's end if something is missing; 17 if the image's body would be
    /// over 1,048,576 bytes. The builder is as it was.
    pub fn finish(&self) -> Result<Vec<u8>, Refusal> {
        let mut image = vec![0; self.image.min(HEADER + MAX_BODY)];
        let bytes = write_image(&self.list, &mut image)?;
        image.truncate(bytes);
        Ok(image)
    }
}
