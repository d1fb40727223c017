//! Many files by few calls, for a repository's hook.

use std::fmt;

use crate::{
    ast::Span,
    buffers::lengthen,
    calls::{TABLE_ROW, format_batch, format_file, refused},
    error::FormatError,
    file::File,
    formatted::Formatted,
    formatter::Formatter,
    image::{HEADER, comments, comments_from},
    limits::{MAX_BATCH, MAX_BODY, MAX_SOURCE},
    options::{Comments, Options},
    refusal::Refusal,
};

/// What is framed of a source and of an image: one byte more than may pass.
/// What is longer is refused by its length, and so is this part of it.
const SOURCE_FRAMED: usize = MAX_SOURCE + 1;
const IMAGE_FRAMED: usize = HEADER + MAX_BODY + 1;

/// Formats many files by few calls
/// ([`format_batch`](crate::calls::format_batch)), in buffers that it owns
/// and keeps.
///
/// Each answer is that of a [`Formatter`] with the same options: what is too
/// large for a batch, a file of more than
/// [`MAX_FILE_ROWS`](crate::limits::MAX_FILE_ROWS) rows or marks, is
/// formatted by one.
///
/// ```
/// use rrufthim::{Batch, File, encode};
///
/// let image = encode(&Default::default(), &[])?;
/// let files = [File::new("", &image), File::new("", &[3, 0, 0])];
/// let [first, second] = &Batch::new().format_files(files)[..] else {
///     panic!("two answers");
/// };
/// assert_eq!(first.as_ref().expect("formatted").text, "");
/// assert!(second.is_err());
/// # Ok::<(), rrufthim::EncodeError>(())
/// ```
pub struct Batch {
    frames: Vec<u8>,
    table: [u32; MAX_BATCH * TABLE_ROW],
    output: Vec<u8>,
    /// For what is too large. It has the options, and the bound on texts.
    formatter: Formatter,
}

impl Default for Batch {
    fn default() -> Self {
        Batch::new()
    }
}

/// Its buffers by their lengths alone.
impl fmt::Debug for Batch {
    fn fmt(&self, f: &mut fmt::Formatter<'_>) -> fmt::Result {
        f.debug_struct("Batch")
            .field("frames", &self.frames.len())
            .field("output", &self.output.len())
            .field("formatter", &self.formatter)
            .finish()
    }
}

impl Batch {
    /// One with the default options, for texts of at most
    /// [`MAX_OUTPUT`](crate::limits::MAX_OUTPUT) bytes.
    pub fn new() -> Self {
        Batch {
            frames: Vec::new(),
            table: [0; MAX_BATCH * TABLE_ROW],
            output: Vec::new(),
            formatter: Formatter::new(),
        }
    }

    /// The same with other options, for the files from now on. One that is
    /// kept stays the same, buffers and all: `kept = kept.with_options(..)`.
    #[must_use]
    pub fn with_options(mut self, options: Options) -> Self {
        self.formatter = self.formatter.with_options(options);
        self
    }

    /// The same for texts of at most so many bytes.
    #[must_use]
    pub fn with_max_output(mut self, bytes: usize) -> Self {
        self.formatter = self.formatter.with_max_output(bytes);
        self
    }

    /// What is chosen.
    pub fn options(&self) -> &Options {
        self.formatter.options()
    }

    /// The files' texts, or why they have none, in the order of the files,
    /// of which there may be any number. A file that is refused changes
    /// nothing for the others.
    ///
    /// The errors are those of [`Formatter::format_file`].
    pub fn format_files<'f>(
        &mut self,
        files: impl IntoIterator<Item = File<'f>>,
    ) -> Vec<Result<Formatted, FormatError>> {
        let mut files = files.into_iter();
        let mut answers = Vec::with_capacity(files.size_hint().0);
        loop {
            let some: Vec<_> = files.by_ref().take(MAX_BATCH).collect();
            if some.is_empty() {
                return answers;
            }
            self.format_some(&some, &mut answers);
        }
    }

    /// At most [`MAX_BATCH`] files.
    fn format_some(
        &mut self,
        files: &[File<'_>],
        answers: &mut Vec<Result<Formatted, FormatError>>,
    ) {
        self.frames.clear();
        for file in files {
            put_frame(&mut self.frames, *file);
        }
        // Texts that have no room together may have it one by one.
        let together = self.call().is_ok();
        let mut texts = &self.output[..];
        let rows = self.table.chunks_exact(TABLE_ROW);
        for (file, row) in files.iter().zip(rows) {
            let told = match together {
                true => {
                    told(*file, row, &mut texts, self.formatter.options())
                }
                false => None,
            };
            let alone = || {
                let formatted = self.formatter.format_file(*file);
                formatted.map(Formatted::into_owned)
            };
            answers.push(told.unwrap_or_else(alone));
        }
    }

    /// The call on the frames, made again with the bytes that it asks for.
    ///
    /// A text is hardly ever longer than its source and image, so that the
    /// first call nearly always has room. What would do for every file is
    /// hundreds of times as much; and to ask for the bytes first would lay
    /// all files out once more.
    fn call(&mut self) -> Result<(), Refusal> {
        let Batch {
            frames,
            table,
            output,
            formatter,
        } = self;
        let (options, most) = (formatter.options(), formatter.max_output());
        lengthen(output, 0, frames.len().min(most), most);
        loop {
            let answer = format_batch(frames, options, table, output);
            // The table has room for every batch.
            let grown = match answer {
                Err(Refusal::MoreForBatch { needed }) => {
                    lengthen(output, 0, needed, most)
                }
                _ => false,
            };
            if !grown {
                return answer.map(|_| ());
            }
        }
    }
}

/// A file as a batch has it: two lengths, source and image.
fn put_frame(frames: &mut Vec<u8>, file: File<'_>) {
    let source = &file.source[..file.source.len().min(SOURCE_FRAMED)];
    let image = &file.image[..file.image.len().min(IMAGE_FRAMED)];
    for part in [source, image] {
        frames.extend((part.len() as u32).to_be_bytes());
    }
    frames.extend(source);
    frames.extend(image);
}

/// What the table's row says of a file, whose text is the next of the texts;
/// nothing if it is too large for a batch.
fn told(
    file: File<'_>,
    row: &[u32],
    texts: &mut &[u8],
    options: &Options,
) -> Option<Result<Formatted, FormatError>> {
    let [number, place, bytes] = [0, 1, 2].map(|at| row[at] as usize);
    let (text, behind) = texts.split_at(bytes);
    *texts = behind;
    match refused(number, place) {
        Ok(()) => Some(formatted(file, text, options)),
        Err(Refusal::MoreRows { .. } | Refusal::MoreMarks { .. }) => None,
        Err(refusal) => Some(Err(file.error(refusal))),
    }
}

fn formatted(
    file: File<'_>,
    text: &[u8],
    options: &Options,
) -> Result<Formatted, FormatError> {
    let left = comments_left(file, text.len(), options);
    let left = left.map_err(|refusal| file.error(refusal))?;
    let text = std::str::from_utf8(text).map_err(FormatError::not_utf8)?;
    Ok(Formatted::new(text.to_owned(), file, left))
}

/// The comments that a file's text of so many bytes lacks. By default there
/// are none. By the original's way there may be, and the table doesn't say
/// it: a call on the file alone does.
fn comments_left(
    file: File<'_>,
    bytes: usize,
    options: &Options,
) -> Result<Vec<Span>, Refusal> {
    let all = comments(file.image);
    if options.comments == Comments::All || all == 0 {
        return Ok(Vec::new());
    }
    let written = format_file(file, options, &mut vec![0; bytes])?;
    Ok(comments_from(file.image, all - written.comments_left))
}
