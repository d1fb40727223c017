//! Formatting of whole files with buffers that are kept.

use std::fmt;

use crate::{
    ast::{Extras, SyntaxTree},
    buffers::{Buffers, LayoutCall},
    calls::{
        LayoutArgs, LayoutState, RenderArgs, RenderState, layout,
        layout_archived,
    },
    encode::{simple_width, write_tree},
    error::FormatError,
    file::File,
    formatted::Formatted,
    image::comments_from,
    limits::MAX_OUTPUT,
    options::Options,
    writer::{ImageWriter, WriteResult},
};

/// Formats whole files of any size by two calls,
/// [`layout`](crate::calls::layout) and [`render`](crate::calls::render), in
/// buffers that it owns and keeps from file to file.
///
/// Keep one for all saves of a thread. A new one has no buffers; the first
/// file gets what it may need, and later ones cost no memory until one is
/// larger.
///
/// ```
/// use rrufthim::{File, Formatter, Options, encode};
///
/// let image = encode(&Default::default(), &[])?;
/// let options = Options::default().with_width(100);
/// let mut formatter = Formatter::new().with_options(options);
/// let formatted = formatter.format_file(File::new("", &image))?;
/// assert_eq!(formatted.text, "");
/// # Ok::<(), Box<dyn std::error::Error>>(())
/// ```
pub struct Formatter {
    /// The image of a tree, or what a plug writes.
    image: Vec<u8>,
    buffers: Buffers,
    options: Options,
}

impl Default for Formatter {
    fn default() -> Self {
        Formatter::new()
    }
}

/// Its buffers by their lengths alone.
impl fmt::Debug for Formatter {
    fn fmt(&self, f: &mut fmt::Formatter<'_>) -> fmt::Result {
        f.debug_struct("Formatter")
            .field("image", &self.image.len())
            .field("buffers", &self.buffers)
            .field("options", &self.options)
            .finish()
    }
}

impl Formatter {
    /// A formatter with the default options, for texts of at most
    /// [`MAX_OUTPUT`] bytes.
    pub fn new() -> Self {
        Formatter {
            image: Vec::new(),
            buffers: Buffers::new(MAX_OUTPUT),
            options: Options::default(),
        }
    }

    /// The same with other options, for the files from now on. One that is
    /// kept stays the same, buffers and all: `kept = kept.with_options(..)`.
    #[must_use]
    pub fn with_options(mut self, options: Options) -> Self {
        self.options = options;
        self
    }

    /// The same for texts of at most so many bytes.
    #[must_use]
    pub fn with_max_output(mut self, bytes: usize) -> Self {
        self.buffers.max_output = bytes;
        self
    }

    /// What is chosen.
    pub fn options(&self) -> &Options {
        &self.options
    }

    /// The bytes that a text may have.
    pub(crate) fn max_output(&self) -> usize {
        self.buffers.max_output
    }

    /// Formats a tree, with [`simple_width`] for widths.
    ///
    /// # Errors
    ///
    /// As [`format_written`](Self::format_written).
    pub fn format_tree(
        &mut self,
        tree: &SyntaxTree,
        source: &str,
        extras: &Extras,
    ) -> Result<Formatted<&str>, FormatError> {
        self.format_written(source, |out| {
            write_tree(out, tree, &extras.comments, simple_width)
        })
    }

    /// Formats what the caller writes as an image: its comments, then its
    /// tree. This is where a tree of another type is plugged in, and where
    /// [`write_tree`] takes widths of the caller's own.
    ///
    /// # Errors
    ///
    /// What is over a limit of the image; refusals 1, 3 to 7 and 15; and as
    /// [`format_file`](Self::format_file) for memory.
    pub fn format_written(
        &mut self,
        source: &str,
        write: impl FnOnce(&mut ImageWriter<'_>) -> WriteResult,
    ) -> Result<Formatted<&str>, FormatError> {
        let source = source.as_bytes();
        let mut out = ImageWriter::new(&mut self.image);
        write(&mut out)
            .and_then(|()| out.finish())
            .map_err(|error| FormatError::encode(*error, source))?;
        let image = &self.image;
        let file = File { source, image };
        format(&mut self.buffers, layout, file, &self.options)
    }

    /// Formats a source with its image.
    ///
    /// # Errors
    ///
    /// Refusals 1 to 7; 20, before all else, for an image of version 2 if
    /// widths aren't those of Unicode 16.0; 15 if the options have such a
    /// width; 10 if the text
    /// is longer than allowed; and 8, 9 or 10 if there is no memory for what
    /// they ask.
    pub fn format_file(
        &mut self,
        file: File<'_>,
    ) -> Result<Formatted<&str>, FormatError> {
        format(&mut self.buffers, layout, file, &self.options)
    }

    /// Formats a source with an archived image, whose comments may be in any
    /// order, as they might before request 10: they come in the order of
    /// their list, and its text is what it was. Of any other image it is that
    /// of [`format_file`](Self::format_file).
    ///
    /// ```
    /// use rrufthim::{ast::*, File, Formatter, Refusal, encode};
    ///
    /// let mut image = encode(&SyntaxTree::default(), &[0..4, 5..9])?;
    /// image[7..23].rotate_left(8); // as an editor of old sent it: the later comment first
    /// let file = File::new("// a\n// b\n", &image);
    ///
    /// let mut formatter = Formatter::new();
    /// let error = formatter.format_file(file).expect_err("a list that runs backwards");
    /// assert_eq!(error.cause, rrufthim::Cause::Refused(Refusal::BadComment { at: 15 }));
    /// assert_eq!(formatter.format_archived(file)?.text, "// b\n// a\n");
    /// # Ok::<(), Box<dyn std::error::Error>>(())
    /// ```
    ///
    /// # Errors
    ///
    /// As [`format_file`](Self::format_file), but for a comment that starts
    /// before the end of the one before (7).
    pub fn format_archived(
        &mut self,
        file: File<'_>,
    ) -> Result<Formatted<&str>, FormatError> {
        format(&mut self.buffers, layout_archived, file, &self.options)
    }
}

/// All declarations, what stands at the foot and the final line, then all
/// rows.
fn format<'b>(
    buffers: &'b mut Buffers,
    layout: LayoutCall,
    file: File<'_>,
    options: &Options,
) -> Result<Formatted<&'b str>, FormatError> {
    let refused = |refusal| file.error(refusal);
    buffers.prepare(file, 1);
    let all = LayoutArgs::up_to(file.declarations()).with_close(true);
    let fresh = LayoutState::default();
    let laid = buffers.lay_out(layout, file, &fresh, &all, options);
    let laid = laid.map_err(refused)?;
    let rows = RenderArgs::up_to(laid.state.next_row);
    let fresh = RenderState::default();
    let written = buffers.render(file, &fresh, &rows, options);
    let written = written.map_err(refused)?;
    let text = buffers.text(written.bytes)?;
    let left = comments_from(file.image, laid.state.comments_placed);
    Ok(Formatted::new(text, file, left))
}
