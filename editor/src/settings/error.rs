//! What is wrong with settings, in words for people.

use std::{
    error::Error,
    fmt, io,
    path::{Path, PathBuf},
};

use crate::place::Place;

/// What is wrong with settings.
#[derive(Clone, Debug, PartialEq, Eq)]
#[non_exhaustive]
pub struct SettingsError {
    /// The file that they are of, or a folder on the way to it.
    pub path: Option<PathBuf>,
    /// Where in it, if what it says is wrong.
    pub place: Option<Place>,
    /// What is wrong.
    pub words: String,
}

impl SettingsError {
    /// What a text says is wrong at a byte.
    pub(super) fn at(text: &str, byte: usize, words: String) -> Self {
        SettingsError {
            path: None,
            place: Some(Place::new(text.as_bytes(), byte..byte)),
            words,
        }
    }

    /// A file or a folder can't be read.
    pub(super) fn unread(path: &Path, error: &io::Error) -> Self {
        SettingsError {
            path: Some(path.to_owned()),
            place: None,
            words: error.to_string(),
        }
    }

    /// The same of a file.
    pub(super) fn of(mut self, path: &Path) -> Self {
        self.path = Some(path.to_owned());
        self
    }
}

impl fmt::Display for SettingsError {
    fn fmt(&self, f: &mut fmt::Formatter<'_>) -> fmt::Result {
        if let Some(path) = &self.path {
            write!(f, "{}: ", path.display())?;
        }
        if let Some(place) = &self.place {
            write!(f, "{place}: ")?;
        }
        f.write_str(&self.words)
    }
}

impl Error for SettingsError {}
