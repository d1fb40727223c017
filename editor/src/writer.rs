//! Writes tree images record by record: length, kind, span, payload,
//! children.

use crate::{
    ast::Span,
    encode::EncodeError,
    image::{HEAD, HEADER, LENGTH, Version},
    kind,
    limits::{MAX_BODY, MAX_COMMENTS, MAX_DEPTH, MAX_SOURCE},
};

/// What stands for the length of a record until it is closed. It outgrows every
/// image, so that one that is never closed is refused.
const OPEN: usize = u32::MAX as usize;

/// The span of a record for which Roto's tree has no `Meta`.
pub const NO_SPAN: Span = 0..0;

/// What the writer's steps give. The error is boxed to keep the good case
/// short.
pub type WriteResult<T = ()> = Result<T, Box<EncodeError>>;

/// Writes a tree image into a buffer of the caller's: first
/// [`comments`](Self::comments), then the tree's record, which holds all
/// others. [`kind`](crate::kind) names the kinds of records, and
/// docs/01-scope.md says what each holds.
///
/// It sees to limits and to lengths. Whether records stand where they may is
/// for [`check`](crate::calls::check) to say.
#[derive(Debug)]
pub struct ImageWriter<'b> {
    out: &'b mut Vec<u8>,
    version: Version,
    /// How many records are open.
    depth: usize,
}

/// A record that was opened, for [`ImageWriter::close`].
#[derive(Debug)]
#[must_use = "an image with a record that isn't closed is refused"]
pub struct OpenRecord {
    at: usize,
    /// How many records were open before it.
    depth: usize,
}

impl<'b> ImageWriter<'b> {
    /// A writer of version 1 into this buffer. What it held is dropped, its
    /// room is kept.
    pub fn new(out: &'b mut Vec<u8>) -> Self {
        ImageWriter::of_version(Version::One, out)
    }

    /// A writer of this version into this buffer.
    pub fn of_version(version: Version, out: &'b mut Vec<u8>) -> Self {
        out.clear();
        out.extend([version.first_byte(), 0, 0, 0, 0]);
        ImageWriter {
            out,
            version,
            depth: 0,
        }
    }

    /// The comments, in the order of the source: each starts at or after the
    /// end of the one before.
    ///
    /// # Errors
    ///
    /// `TooManyComments`, `BadComment`, `UnorderedComment`.
    pub fn comments(
        &mut self,
        comments: impl ExactSizeIterator<Item = Span>,
    ) -> WriteResult {
        let count = comments.len();
        if count > MAX_COMMENTS {
            return Err(EncodeError::TooManyComments { count }.into());
        }
        self.out.extend((count as u16).to_be_bytes());
        let mut end_before = 0;
        for (index, span) in comments.enumerate() {
            if span.is_empty() || !in_bounds(&span) {
                return Err(EncodeError::BadComment { index, span }.into());
            }
            if span.start < end_before {
                return Err(EncodeError::UnorderedComment {
                    index,
                    span,
                    end_before,
                }
                .into());
            }
            end_before = span.end;
            self.out.extend(number(span.start));
            self.out.extend(number(span.end));
        }
        Ok(())
    }

    /// Opens a record, to be filled with its payload and its children and
    /// then closed.
    ///
    /// # Errors
    ///
    /// `TooDeep`, `BadSpan`, `TooLong`.
    #[inline]
    pub fn open(&mut self, kind: u8, span: Span) -> WriteResult<OpenRecord> {
        let (at, depth) = (self.out.len(), self.depth);
        self.head(OPEN, kind, span, [])?;
        self.depth += 1;
        Ok(OpenRecord { at, depth })
    }

    /// Closes the record that was opened last, and so sets its length.
    ///
    /// # Errors
    ///
    /// `TooLong`.
    ///
    /// # Panics
    ///
    /// If the record is another writer's and lies past this one's bytes.
    #[inline]
    pub fn close(&mut self, record: OpenRecord) -> WriteResult {
        self.depth = record.depth;
        self.room_for(0)?;
        let length = self.out.len() - record.at - LENGTH;
        self.put_length(record.at, length);
        Ok(())
    }

    /// A record with neither payload nor children.
    ///
    /// # Errors
    ///
    /// As [`open`](Self::open).
    #[inline]
    pub fn leaf(&mut self, kind: u8, span: Span) -> WriteResult {
        self.head(HEAD, kind, span, [])
    }

    /// A record with a payload byte and no children.
    ///
    /// # Errors
    ///
    /// As [`open`](Self::open).
    #[inline]
    pub fn choice(
        &mut self,
        kind: u8,
        span: Span,
        payload: u8,
    ) -> WriteResult {
        self.head(HEAD + 1, kind, span, [payload])
    }

    /// A text record: a name or the shebang, with its width in columns. In
    /// version 2 the width isn't written, nor looked at.
    ///
    /// # Errors
    ///
    /// `TooWide`, and as [`open`](Self::open).
    #[inline]
    pub fn text(
        &mut self,
        span: Span,
        text: &str,
        width: usize,
    ) -> WriteResult {
        if self.version == Version::Two {
            return self.bare_text(span, text);
        }
        let Ok(columns) = u16::try_from(width) else {
            return Err(EncodeError::TooWide { span, width }.into());
        };
        self.room_for(text.len())?;
        let length = HEAD + 2 + text.len();
        self.head(length, kind::TEXT, span, columns.to_be_bytes())?;
        self.out.extend_from_slice(text.as_bytes());
        Ok(())
    }

    /// A text record without a width.
    fn bare_text(&mut self, span: Span, text: &str) -> WriteResult {
        self.room_for(text.len())?;
        self.head(HEAD + text.len(), kind::TEXT, span, [])?;
        self.out.extend_from_slice(text.as_bytes());
        Ok(())
    }

    /// A payload byte of the open record, before its children.
    #[inline]
    pub fn byte(&mut self, payload: u8) {
        self.out.push(payload);
    }

    /// The place of a child that is absent.
    #[inline]
    pub fn absent(&mut self) {
        self.out.extend_from_slice(&[0; LENGTH]);
    }

    /// Sets the image's own length, now that all is written.
    ///
    /// # Errors
    ///
    /// `TooLong`.
    pub fn finish(mut self) -> WriteResult {
        self.room_for(0)?;
        self.put_length(1, self.out.len() - HEADER);
        Ok(())
    }

    /// Length, kind, span and payload of a record, after the tests of all
    /// records.
    #[inline]
    fn head<const P: usize>(
        &mut self,
        length: usize,
        kind: u8,
        span: Span,
        payload: [u8; P],
    ) -> WriteResult {
        if self.depth == MAX_DEPTH {
            return too_deep(span);
        }
        if !in_bounds(&span) {
            return bad_span(span);
        }
        self.room_for(0)?;
        let mut head = [kind; LENGTH + HEAD];
        head[..4].copy_from_slice(&number(length));
        head[5..9].copy_from_slice(&number(span.start));
        head[9..].copy_from_slice(&number(span.end));
        self.out.extend_from_slice(&head);
        self.out.extend_from_slice(&payload);
        Ok(())
    }

    /// Whether the body may have so many bytes more.
    #[inline]
    fn room_for(&self, more: usize) -> WriteResult {
        match self.out.len() + more <= HEADER + MAX_BODY {
            true => Ok(()),
            false => too_long(),
        }
    }

    /// Writes a length at its place.
    #[inline]
    fn put_length(&mut self, at: usize, length: usize) {
        self.out[at..at + LENGTH].copy_from_slice(&number(length));
    }
}

#[inline]
fn in_bounds(span: &Span) -> bool {
    span.start <= span.end && span.end <= MAX_SOURCE
}

/// The numbers of an image are at most the body's length, so four bytes hold
/// them.
#[inline]
fn number(value: usize) -> [u8; 4] {
    (value as u32).to_be_bytes()
}

// Apart, so that the good case stays short.

#[cold]
fn too_deep(span: Span) -> WriteResult {
    Err(EncodeError::TooDeep { span }.into())
}

#[cold]
fn bad_span(span: Span) -> WriteResult {
    Err(EncodeError::BadSpan { span }.into())
}

#[cold]
fn too_long() -> WriteResult {
    Err(EncodeError::TooLong.into())
}
