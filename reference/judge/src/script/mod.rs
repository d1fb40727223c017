//! Roto text to a frame, so that examples can be written as text.
//!
//! This is not the original's parser, whose sources are not all at hand. It
//! reads what examples need, and gives every record the span from its first
//! token to its last: a statement's `;` belongs to it, an import's doesn't.
//! Comments are those of lexer.rs, newline included.

mod declarations;
mod expressions;
mod tokens;

use std::ops::Range;

use crate::{
    frame,
    image::{self, Tree, node, text},
};

/// What was read, or where reading stopped.
type Read<T> = Result<T, usize>;

/// A frame for a text, or the place that could not be read.
pub fn frame(source: &str) -> Read<Vec<u8>> {
    let (comments, tree) = read(source)?;
    let image = image::write(&comments, &tree);
    Ok(frame::join(source.as_bytes(), &image))
}

/// The comments and the tree of a text.
pub fn read(source: &str) -> Read<(Vec<Range<usize>>, Tree)> {
    let mut reader = Reader {
        source,
        at: 0,
        comments: Vec::new(),
        records: true,
    };
    let tree = reader.file()?;
    Ok((reader.comments, tree))
}

struct Reader<'s> {
    source: &'s str,
    /// The end of the last token.
    at: usize,
    comments: Vec<Range<usize>>,
    /// Whether `a {` may start a record.
    records: bool,
}

impl<'s> Reader<'s> {
    fn file(&mut self) -> Read<Tree> {
        let mut children = vec![self.shebang()?];
        while !self.peek().is_empty() {
            children.push(Some(self.declaration()?));
        }
        // The comments behind the last token.
        self.next();
        Ok(node(1, 0..0, children))
    }

    fn shebang(&mut self) -> Read<Option<Tree>> {
        let line = self.source.strip_prefix("#!");
        let inked = |c: char| !c.is_whitespace();
        let Some(line) = line.filter(|line| line.starts_with(inked)) else {
            return Ok(None);
        };
        let end = line.find('\n').map_or(line.len(), |length| length + 1);
        let content = &self.source[..end + 2];
        self.at = content.len();
        wide(0..0, content.trim_end(), content).map(Some)
    }

    /// Where the next token starts.
    fn ahead(&self) -> usize {
        tokens::gap(self.source, self.at).0
    }

    fn peek(&self) -> &'s str {
        tokens::token(&self.source[self.ahead()..])
    }

    /// Takes a token, with the comments before it.
    fn next(&mut self) -> Range<usize> {
        let (start, comments) = tokens::gap(self.source, self.at);
        self.comments.extend(comments);
        self.at = start + tokens::token(&self.source[start..]).len();
        start..self.at
    }

    fn next_is(&mut self, token: &str) -> bool {
        let found = self.peek() == token;
        if found {
            self.next();
        }
        found
    }

    fn take(&mut self, token: &str) -> Read<Range<usize>> {
        if self.peek() == token {
            Ok(self.next())
        } else {
            Err(self.ahead())
        }
    }

    fn name(&mut self) -> Read<Tree> {
        if !self.peek().starts_with(tokens::is_word) {
            return Err(self.ahead());
        }
        let span = self.next();
        let content = &self.source[span.clone()];
        wide(span, content, content)
    }

    fn path(&mut self) -> Read<Tree> {
        let start = self.ahead();
        let mut names = vec![Some(self.name()?)];
        while self.peek() == "." && !self.group_follows() {
            self.next();
            names.push(Some(self.name()?));
        }
        Ok(node(4, start..self.at, names))
    }

    /// Whether `.{` follows, as in imports.
    fn group_follows(&self) -> bool {
        let behind = tokens::gap(self.source, self.ahead() + 1).0;
        self.source[behind..].starts_with('{')
    }

    /// Elements with commas between, the last comma optional.
    fn list(
        &mut self,
        [open, close]: [&str; 2],
        mut element: impl FnMut(&mut Self) -> Read<Tree>,
    ) -> Read<Tree> {
        let start = self.take(open)?.start;
        let records = std::mem::replace(&mut self.records, true);
        let mut elements = Vec::new();
        while self.peek() != close {
            elements.push(Some(element(self)?));
            if !self.next_is(",") && self.peek() != close {
                return Err(self.ahead());
            }
        }
        self.records = records;
        self.next();
        Ok(node(3, start..self.at, elements))
    }
}

/// A text record as wide as `shown`; an image has two bytes for a width.
fn wide(span: Range<usize>, shown: &str, content: &str) -> Read<Tree> {
    match unicode_width::true_width(shown) {
        width @ 0..=0xFFFF => Ok(text(span, width, content)),
        _ => Err(span.start),
    }
}
