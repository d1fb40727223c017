//! The shapes of Roto's own modules that the patched src/fmt.rs and the plug
//! use, for which reference/roto has no file that compiles alone.

pub mod load;
pub mod parser;
mod report;

pub use crate::patches::patched::fmt;
pub use report::{RotoError, RotoReport};
