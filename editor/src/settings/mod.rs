//! What a folder's files are formatted by: `rrufthim.toml`, for an editor and
//! a repository's hook alike, so that they don't disagree.
//!
//! ```toml
//! # What may stand in it, each with another value than the default.
//! width = 100             # columns of a line, from 40 to 200
//! unicode = "16.0"        # how columns are counted: an edition, 15.1 or 16.0
//! comments = "as-roto"    # the ones at the foot are left out
//! ```
//!
//! Of a file the settings are those of the nearest such file alone: the one in
//! the file's folder, else in the one above, and so on. Before it goes what a
//! user chose for this run; behind it go the defaults:
//!
//! ```no_run
//! use rrufthim::{Formatter, settings::Settings};
//!
//! let target = "tariffs/2026.roto".as_ref();
//! let chosen = Settings::default().with_width(60); // by the user, for now
//! let options = chosen.over(Settings::for_file(target)?).options();
//! let formatter = Formatter::new().with_options(options);
//! # Ok::<(), rrufthim::settings::SettingsError>(())
//! ```

mod error;
mod find;
mod read;

pub use error::SettingsError;
pub use find::NAME;

use std::path::Path;

use crate::options::{Comments, Options, Widths};

/// What is chosen. What isn't is left to other settings, and in the end to
/// the default of [`Options`].
#[derive(Clone, Debug, Default, PartialEq, Eq, Hash)]
#[non_exhaustive]
pub struct Settings {
    /// `width`, the columns of a line.
    pub width: Option<usize>,
    /// `unicode`, how columns are counted.
    pub widths: Option<Widths>,
    /// `comments`, which of them the text holds.
    pub comments: Option<Comments>,
}

impl Settings {
    /// The settings of a file, which need not be there: those of the nearest
    /// [`NAME`], in its folder or above, or none.
    ///
    /// # Errors
    ///
    /// If it, or a folder on the way, can't be read, and as
    /// [`parse`](Self::parse).
    pub fn for_file(file: &Path) -> Result<Self, SettingsError> {
        match find::nearest(file)? {
            Some(path) => Settings::read(&path),
            None => Ok(Settings::default()),
        }
    }

    /// The settings that a file of settings holds.
    ///
    /// # Errors
    ///
    /// If it can't be read, and as [`parse`](Self::parse).
    pub fn read(path: &Path) -> Result<Self, SettingsError> {
        let text = find::text(path)?;
        Settings::parse(&text).map_err(|error| error.of(path))
    }

    /// The settings of a text: lines `key = value`, each key once, with
    /// blanks as one likes, and comments behind `#`. It is TOML, but not all
    /// that is TOML is understood: no tables, and no escapes.
    ///
    /// # Errors
    ///
    /// What isn't understood, with line and column: a key that there is not
    /// or that stands there twice, and a value that it can't have.
    pub fn parse(text: &str) -> Result<Self, SettingsError> {
        read::settings(text)
    }

    /// These, and what they leave open by others.
    #[must_use]
    pub fn over(self, others: Settings) -> Self {
        Settings {
            width: self.width.or(others.width),
            widths: self.widths.or(others.widths),
            comments: self.comments.or(others.comments),
        }
    }

    /// The options that they give, with the default where they leave it open.
    pub fn options(&self) -> Options {
        let default = Options::default();
        Options {
            width: self.width.unwrap_or(default.width),
            widths: self.widths.unwrap_or(default.widths),
            comments: self.comments.unwrap_or(default.comments),
        }
    }

    /// The same with lines of so many columns.
    #[must_use]
    pub fn with_width(mut self, width: usize) -> Self {
        self.width = Some(width);
        self
    }

    /// The same with texts measured by this rule.
    #[must_use]
    pub fn with_widths(mut self, widths: Widths) -> Self {
        self.widths = Some(widths);
        self
    }

    /// The same with these comments.
    #[must_use]
    pub fn with_comments(mut self, comments: Comments) -> Self {
        self.comments = Some(comments);
        self
    }
}
