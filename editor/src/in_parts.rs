//! A file formatted a part at a time.

use crate::{
    ast::Span,
    buffers::Buffers,
    calls::{
        LayoutArgs, LayoutState, RenderArgs, RenderState, check, layout,
    },
    error::FormatError,
    file::File,
    image::{comments_from, name_start},
    limits::{ALL_ROWS, MAX_OUTPUT},
    options::Options,
    place::Place,
};

/// A file that is laid out and rendered a part at a time: what
/// [`layout`](crate::calls::layout) and [`render`](crate::calls::render)
/// carry from call to call, states and buffers of both.
///
/// The joined texts are those of one run. For an editor that must answer
/// while a long file is formatted:
///
/// ```
/// use rrufthim::{File, InParts};
///
/// # let source = "const A: u32 = 1;\n";
/// # let image = rrufthim::encode(&Default::default(), &[])?;
/// let mut parts = InParts::new(File::new(source, &image))?;
/// let mut text = String::new();
/// while let Some(part) = parts.advance(100)? {
///     text.push_str(part);
/// }
/// let left = parts.comments_left();
/// # assert!(text.is_empty() && left.is_empty());
/// # Ok::<(), Box<dyn std::error::Error>>(())
/// ```
#[derive(Debug)]
pub struct InParts<'f> {
    file: File<'f>,
    declarations: usize,
    buffers: Buffers,
    layout: LayoutState,
    rendering: RenderState,
    options: Options,
}

impl<'f> InParts<'f> {
    /// A file of which nothing is laid out yet, with the default options.
    ///
    /// # Errors
    ///
    /// Refusals 1 to 7.
    pub fn new(file: File<'f>) -> Result<Self, FormatError> {
        let accepted = check(file);
        let accepted = accepted.map_err(|refusal| file.error(refusal))?;
        let mut buffers = Buffers::new(MAX_OUTPUT);
        // Once more for the rows of the parts before.
        buffers.prepare(file, 2);
        Ok(InParts {
            file,
            declarations: accepted.declarations,
            buffers,
            layout: LayoutState::default(),
            rendering: RenderState::default(),
            options: Options::default(),
        })
    }

    /// The same with other options, for all of it: once a part is laid out
    /// or rendered, another choice is refused, by 12 if it is of comments or
    /// of the rule of widths, by 15 if it is of the width. A width that isn't
    /// legal is refused by the first part that is rendered. An image of
    /// version 2 is refused by 20, unless widths are those of Unicode 16.0.
    #[must_use]
    pub fn with_options(mut self, options: Options) -> Self {
        self.options = options;
        self
    }

    /// How many declarations the file has.
    pub fn declarations(&self) -> usize {
        self.declarations
    }

    /// How far layout came.
    pub fn layout_state(&self) -> &LayoutState {
        &self.layout
    }

    /// How far rendering came.
    pub fn render_state(&self) -> &RenderState {
        &self.rendering
    }

    /// The comments that no row holds yet, with line and column; once the
    /// layout is closed, those that the text doesn't hold: none, unless they
    /// are left out as in Roto's own formatter.
    pub fn comments_left(&self) -> Vec<Place> {
        Place::all(self.file.source, self.spans_left())
    }

    fn spans_left(&self) -> Vec<Span> {
        comments_from(self.file.image, self.layout.comments_placed)
    }

    /// The gaps before the next declaration: the ranges of the source in
    /// which layout counts newlines there, one before each comment that still
    /// stands in front of it and one before its name, or an import's path.
    /// Where [`newlines`](crate::calls::newlines) counts two or more in a
    /// gap, that gap makes a blank line, and else it makes none.
    ///
    /// A gap starts where layout last looked at the source, which may be long
    /// before the declaration in front of it ends. Up to the first comment of
    /// a file, or to its first declaration, no newline is counted. There is
    /// no gap if all declarations are laid out.
    pub fn gaps(&self) -> Vec<Span> {
        let next = self.layout.next_declaration;
        let Some(name) = name_start(self.file.image, next) else {
            return Vec::new();
        };
        let mut from = self.layout.position;
        let mut gaps = Vec::new();
        for comment in self.spans_left() {
            if comment.start >= name {
                break;
            }
            gaps.push(from..comment.start);
            // The newline at its end is counted with those after it.
            from = comment.end - 1;
        }
        gaps.push(from..name);
        if next == 0 {
            gaps.remove(0);
        }
        gaps
    }

    /// Lays out and renders so many declarations more, but at least one, and
    /// gives their text; the final line comes with the last. `None` if the
    /// text is whole.
    ///
    /// # Errors
    ///
    /// As [`lay_out`](Self::lay_out) and [`render`](Self::render).
    pub fn advance(
        &mut self,
        declarations: usize,
    ) -> Result<Option<&str>, FormatError> {
        if !self.layout.closed {
            let next = self.layout.next_declaration;
            let stop = next.saturating_add(declarations.max(1));
            self.lay_out(stop.min(self.declarations))?;
        } else if self.is_rendered() {
            return Ok(None);
        }
        self.render().map(Some)
    }

    /// Lays out up to a declaration, that one not included. At their number
    /// it closes: the comments at the foot, unless they are left out, and
    /// the final line are added.
    ///
    /// # Errors
    ///
    /// Refusal 12 if the stop lies before the next declaration or past their
    /// number, or if the layout is closed; 8 if there is no memory for what
    /// it asks. What was laid out stays.
    pub fn lay_out(&mut self, stop: usize) -> Result<(), FormatError> {
        let (file, close) = (self.file, stop == self.declarations);
        let args = LayoutArgs::up_to(stop).with_close(close);
        let (state, options) = (&self.layout, &self.options);
        let laid = self.buffers.lay_out(layout, file, state, &args, options);
        self.layout = laid.map_err(|refusal| file.error(refusal))?.state;
        Ok(())
    }

    /// Whether all that is laid out is rendered.
    pub fn is_rendered(&self) -> bool {
        self.rendering.next_row == self.layout.next_row
    }

    /// Renders what was laid out since the last call, and gives its text.
    ///
    /// # Errors
    ///
    /// Refusal 15 if the options have such a width, 10 if the text is over
    /// [`MAX_OUTPUT`] bytes, 9 or 10 if there is no memory for what they ask.
    /// What was rendered stays.
    pub fn render(&mut self) -> Result<&str, FormatError> {
        self.render_rows(ALL_ROWS)
    }

    /// Renders at most so many rows now of what was laid out, and gives their
    /// text. It stops when they are spent, wherever that is, and the next call
    /// goes on from there. A call tests the rows from the outermost one around
    /// the next to the last that is laid out: so that it stays short, lay out
    /// one declaration at a time.
    ///
    /// # Errors
    ///
    /// As [`render`](Self::render), and refusal 22 for no row.
    pub fn render_rows(&mut self, rows: usize) -> Result<&str, FormatError> {
        let args = RenderArgs::up_to(self.layout.next_row);
        let args = args.with_allotment(rows);
        let (file, state) = (self.file, &self.rendering);
        let options = &self.options;
        let written = self.buffers.render(file, state, &args, options);
        let written = written.map_err(|refusal| file.error(refusal))?;
        self.rendering = written.state;
        self.buffers.text(written.bytes)
    }
}
