//! The judge: NLnet Labs' formatter, but for the edits that README.md lists,
//! run on tree images.
//!
//! Document 01 (docs/01-scope.md) sets the image, the refusals and the rows.
//! What is formatted, and how, is left to `fmt_parsed` of src/fmt.rs.

// The original's own modules, at the paths it imports them by.
#[path = "../../roto/src/ast.rs"]
#[allow(dead_code)]
pub mod ast;
#[path = "shim/load.rs"]
pub mod load;
#[path = "shim/parser.rs"]
pub mod parser;
#[path = "shim/report.rs"]
mod report;
pub use report::{RotoError, RotoReport};

include!(concat!(env!("OUT_DIR"), "/declare_fmt.rs"));

pub use fmt::driver;

pub mod allotment;
pub mod answers;
pub mod batch;
pub mod calls;
pub mod choice;
pub mod contents;
pub mod examples;
pub mod explain;
pub mod figures;
pub mod formulas;
pub mod frame;
pub mod generate;
pub mod grammar;
pub mod holds;
pub mod image;
pub mod listed;
pub mod mode;
pub mod moves;
pub mod newlines;
pub mod program;
pub mod random;
pub mod reader;
pub mod reads_back;
pub mod refusal;
pub mod rows;
pub mod rule;
pub mod script;
pub mod steps;
pub mod table;
pub mod tokens;
pub mod tree;
pub mod unicode;
pub mod width;
