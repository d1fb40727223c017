//! Accepted records as the types of src/ast.rs, with their spans.

use crate::{
    ast::{self, Identifier},
    load::FileTree,
    parser::{
        Extras,
        meta::{Meta, Span, Spans},
    },
    reader::{Accepted, Payload, Record},
};

mod declarations;
mod expressions;

pub(crate) use expressions::BIN_OPS;

/// All that the formatter takes, and where its texts lie. Names in the tree
/// point into the image: they must not be kept longer than this.
pub struct Input<'i> {
    pub ast: ast::SyntaxTree,
    pub files: FileTree,
    pub spans: Spans,
    pub extras: Extras,
    pub(crate) image: &'i [u8],
    /// Offset in the image of the shebang's text, which the tree copies.
    shebang_at: usize,
    widths: Vec<(usize, usize)>,
}

impl<'i> Input<'i> {
    pub fn new(accepted: &Accepted<'i>, image: &'i [u8]) -> Self {
        let mut builder = Builder {
            spans: Spans::default(),
        };
        let ast = builder.tree(&accepted.tree);
        let files = FileTree::test_file("frame", accepted.source, 0);
        let comments = accepted.comments.iter();
        let mut input = Input {
            ast,
            files,
            spans: builder.spans,
            extras: Extras {
                comments: comments.map(|c| Span::new(0, c.clone())).collect(),
            },
            image,
            shebang_at: accepted.tree.children[0]
                .as_ref()
                .map_or(0, |shebang| text_at(shebang)),
            widths: Vec::new(),
        };
        input.widths = input.collect_widths(&accepted.tree);
        input
    }

    pub fn declarations(&self) -> usize {
        self.ast.declarations.len()
    }

    /// Makes the supplied widths hold for the formatter until dropped.
    pub fn supply_widths(&self) -> unicode_width::Supplied {
        unicode_width::Supplied::new(self.widths.iter().copied())
    }

    /// The address of each text as the formatter sees it, with its width if
    /// the image supplies one.
    fn collect_widths(&self, tree: &Record) -> Vec<(usize, usize)> {
        let mut widths = Vec::new();
        tree.walk(&mut |record| {
            if let Payload::Text {
                width: Some(width),
                text,
            } = record.payload
            {
                widths.push((text.as_ptr().addr(), width.into()));
            }
        });
        if let (Some(copy), Some((_, width))) =
            (&self.ast.shebang, widths.first().copied())
        {
            widths[0] = (copy.as_ptr().addr(), width);
        }
        widths
    }

    /// Offset in the source of a text that lies in it.
    pub(crate) fn source_offset(&self, text: &str) -> Option<usize> {
        let source = &self.files.files[0].contents;
        let offset =
            text.as_ptr().addr().checked_sub(source.as_ptr().addr())?;
        (offset + text.len() <= source.len()).then_some(offset)
    }

    /// Offset in the image of an identifier's or the shebang's text.
    pub(crate) fn image_offset(&self, text: &str) -> usize {
        let address = text.as_ptr().addr();
        if let Some(shebang) = &self.ast.shebang
            && shebang.as_ptr().addr() == address
        {
            return self.shebang_at;
        }
        address - self.image.as_ptr().addr()
    }
}

/// Offset of a text record's text, which goes to the record's end.
fn text_at(record: &Record) -> usize {
    record.end - text(record).len()
}

/// Builds the tree, giving each node the span of its record.
struct Builder {
    spans: Spans,
}

impl Builder {
    fn tree(&mut self, record: &Record) -> ast::SyntaxTree {
        let (shebang, declarations) =
            record.children.split_first().expect("the shebang's place");
        ast::SyntaxTree {
            shebang: shebang.as_ref().map(own_text),
            declarations: declarations
                .iter()
                .flatten()
                .map(|child| self.declaration(child))
                .collect(),
        }
    }

    fn meta<T>(&mut self, record: &Record, node: T) -> Meta<T> {
        self.spans.add(Span::new(0, record.span.clone()), node)
    }

    fn list<T>(
        &mut self,
        list: &Record,
        mut element: impl FnMut(&mut Self, &Record) -> T,
    ) -> Vec<T> {
        let children = list.children.iter().flatten();
        children.map(|child| element(self, child)).collect()
    }

    fn meta_list<T>(
        &mut self,
        list: &Record,
        element: impl FnMut(&mut Self, &Record) -> T,
    ) -> Meta<Vec<T>> {
        let elements = self.list(list, element);
        self.meta(list, elements)
    }

    fn ident(&mut self, record: &Record) -> Meta<Identifier> {
        self.meta(record, Identifier::from(text(record)))
    }

    fn path(&mut self, record: &Record) -> Meta<ast::Path> {
        let idents = self.list(record, Self::ident);
        self.meta(record, ast::Path { idents })
    }
}

/// A child that must be there.
pub(crate) fn child<'r, 'i>(
    record: &'r Record<'i>,
    place: usize,
) -> &'r Record<'i> {
    maybe(record, place).expect("the reader saw to it")
}

/// A child that may be absent.
pub(crate) fn maybe<'r, 'i>(
    record: &'r Record<'i>,
    place: usize,
) -> Option<&'r Record<'i>> {
    record.children[place].as_ref()
}

pub(crate) fn text<'i>(record: &Record<'i>) -> &'i str {
    match record.payload {
        Payload::Text { text, .. } => text,
        _ => unreachable!("the reader saw to it"),
    }
}

pub(crate) fn byte(record: &Record) -> u8 {
    match record.payload {
        Payload::Byte(byte) => byte,
        _ => unreachable!("the reader saw to it"),
    }
}

/// A copy with an address of its own even when empty.
fn own_text(record: &Record) -> String {
    let text = text(record);
    let mut copy = String::with_capacity(text.len() + 1);
    copy.push_str(text);
    copy
}
