//! The shapes of src/load.rs.

use std::{io, path::Path};

#[derive(Debug)]
pub struct LoadError {
    pub path: String,
    pub err: io::Error,
}

#[derive(Clone, Debug)]
pub struct SourceFile {
    pub name: String,
    pub contents: String,
}

#[derive(Clone, Debug)]
pub struct FileTree {
    pub files: Vec<SourceFile>,
}

impl FileTree {
    pub fn single_file(path: impl AsRef<Path>) -> Result<Self, LoadError> {
        let name = path.as_ref().display().to_string();
        match std::fs::read_to_string(path) {
            Ok(contents) => Ok(FileTree {
                files: vec![SourceFile { name, contents }],
            }),
            Err(err) => Err(LoadError { path: name, err }),
        }
    }

    pub fn test_file(file: &str, source: &str, _: usize) -> Self {
        FileTree {
            files: vec![SourceFile {
                name: file.into(),
                contents: source.into(),
            }],
        }
    }
}
