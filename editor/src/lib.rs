//! The proved formatter for Roto scripts, as a Rust library: a parsed file in,
//! its text out, with every comment.
//!
//! ```
//! use rrufthim::{ast::*, fmt_parsed};
//!
//! let source = "import  rates ; // filing 44-B\n";
//! let name = Meta::new("rates".into(), 8..13);
//! let path = Meta::new(Path { idents: vec![name] }, 8..13);
//! let import = ImportPath { path: Some(path), group: None };
//! let tree = SyntaxTree {
//!     shebang: None,
//!     declarations: vec![Declaration::Import(Meta::new(import, 8..13))],
//! };
//! let extras = Extras { comments: vec![16..31] };
//!
//! let formatted = fmt_parsed(&tree, source, &extras)?;
//! assert_eq!(formatted.text, "import rates; // filing 44-B\n");
//! # Ok::<(), rrufthim::FormatError>(())
//! ```
//!
//! # What there is
//!
//! | For | Names |
//! |---|---|
//! | a file at a time | [`fmt_parsed`], which takes the place of Roto's own; [`fmt_written`], for trees of other types, Roto's own among them, which a plug writes by an [`ImageWriter`] (README.md, "Plugging in") |
//! | file after file | [`Formatter`], which keeps its buffers; [`Batch`], for lists of files |
//! | a long file a part at a time | [`InParts`], and below it [`Rendering`] |
//! | what is chosen | [`Options`], by [`Formatter::with_options`] and the like; [`settings`], which reads what a folder chooses for its files |
//! | what is wrong | [`FormatError`], in words, with line and column ([`Place`]); by a number, [`Refusal`] |
//! | a tree | [`ast`], and [`encode`], which makes an image of it: what all calls read, with its source a [`File`] |
//! | an image without a tree | [`generator`], from steps; [`reads_back`] says whether its text would be read as this tree; [`kind`] names its records; [`formulas`] gives all small formulas, to try things on |
//! | archives | [`archive`], images without widths |
//! | figures | [`figures`], of files and of many together |
//! | the proved functions themselves | [`calls`], over slices that the caller lends: any arguments that safe Rust can give them end in an answer or a [`Refusal`]; [`limits`] |
//!
//! By default every comment is kept. Options are chosen in one way:
//! `with_options` where there is something to keep, else the functions are
//! handed them.
//!
//! ```
//! use rrufthim::{Comments, Formatter, Options, Widths};
//!
//! let options = Options::default()
//!     .with_width(100)
//!     .with_widths(Widths::Unicode16_0)
//!     .with_comments(Comments::All);
//! let formatter = Formatter::new().with_options(options);
//! # assert_eq!(formatter.options().width, 100);
//! ```
//!
//! Structs that may get further fields are `#[non_exhaustive]`: they are made
//! by their constructors or as the default, and changed by `with_..` or field
//! by field.
//!
//! # The static library
//!
//! The functions are proved in Rattle and linked from a static library, which
//! `tools/build exports` makes in the repository's top folder. The crate finds
//! it at ../target/staticlib/libexports.a, or where `RRUFTHIM_ARCHIVE` says as
//! it is built:
//!
//! ```sh
//! RRUFTHIM_ARCHIVE=/opt/rrufthim/libexports.a cargo build   # the file, or its folder
//! ```
//!
//! A path that isn't absolute is taken from this package's folder. A library
//! of another shape ([`SHAPE`]) isn't linked. It is for x86-64 Linux, and so is
//! the crate; elsewhere it doesn't compile, and says so.
//!
//! docs/01-scope.md and docs/02-change-requests.md of the repository have the
//! rules.

#![deny(missing_docs, unsafe_code)]

#[cfg(not(all(target_arch = "x86_64", target_os = "linux")))]
compile_error!(
    "rrufthim is for x86-64 Linux: the static library of the proved functions \
     has machine code for that alone"
);

// By this name the files of plug/ find what they use.
extern crate self as rrufthim;

pub mod archive;
pub mod ast;
mod batch;
mod buffers;
pub mod calls;
mod encode;
mod error;
pub mod figures;
mod file;
mod fmt;
mod formatted;
mod formatter;
mod formulas;
pub mod generator;
mod image;
mod in_parts;
pub mod kind;
pub mod limits;
#[allow(unsafe_code)]
mod linked;
mod operator;
mod options;
mod place;
mod read_back;
mod refusal;
mod rendering;
pub mod settings;
mod writer;

pub use ast::Span;
pub use batch::Batch;
pub use encode::{
    EncodeError, encode, encode_as, encode_written, encode_written_as,
    simple_width, write_tree,
};
pub use error::{Cause, FormatError};
pub use file::File;
pub use fmt::{fmt_parsed, fmt_written};
pub use formatted::{CommentsLeft, Formatted};
pub use formatter::Formatter;
pub use formulas::{Formulas, formulas};
pub use image::Version;
pub use in_parts::InParts;
pub use linked::SHAPE;
pub use options::{Comments, Options, Widths};
pub use place::Place;
pub use read_back::{Operand, Parent, ReadBackError, reads_back};
pub use refusal::{Refusal, RefusalRow};
pub use rendering::Rendering;
pub use writer::{ImageWriter, NO_SPAN, OpenRecord, WriteResult};

/// The example of README.md, run as a test.
#[cfg(doctest)]
#[doc = include_str!("../README.md")]
struct Readme;
