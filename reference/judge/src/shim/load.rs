//! The shapes of src/load.rs that the formatter uses.

use std::path::Path;

use crate::RotoReport;

/// Why a file could not be loaded. Loading is not part of the judge.
#[derive(Debug)]
pub struct LoadError;

impl From<LoadError> for RotoReport {
    fn from(_: LoadError) -> Self {
        RotoReport {
            files: Vec::new(),
            errors: Vec::new(),
            spans: Default::default(),
        }
    }
}

#[derive(Clone, Debug)]
pub struct SourceFile {
    pub contents: String,
}

#[derive(Clone, Debug)]
pub struct FileTree {
    pub files: Vec<SourceFile>,
}

impl FileTree {
    pub fn single_file(_: impl AsRef<Path>) -> Result<Self, LoadError> {
        Err(LoadError)
    }

    /// The contents get room for one byte more, so that even an empty text,
    /// or the one at its end, has an address within an allocation of its own.
    pub fn test_file(_: &str, source: &str, _: usize) -> Self {
        let mut contents = String::with_capacity(source.len() + 1);
        contents.push_str(source);
        FileTree {
            files: vec![SourceFile { contents }],
        }
    }
}
