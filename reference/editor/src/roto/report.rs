//! The shapes of errors and reports of src/pipeline.rs, as the patch has them,
//! with lines in the place of drawings.

use std::fmt;

use super::{
    load::{LoadError, SourceFile},
    parser::{ParseError, meta::Spans},
};

#[derive(Debug)]
pub enum RotoError {
    Read(LoadError),
    Parse(ParseError),
    Format(ParseError),
    Custom(String),
}

#[derive(Debug, Default)]
pub struct RotoReport {
    pub files: Vec<SourceFile>,
    pub errors: Vec<RotoError>,
    pub spans: Spans,
}

impl From<LoadError> for RotoReport {
    fn from(error: LoadError) -> Self {
        RotoReport {
            errors: vec![RotoError::Read(error)],
            ..RotoReport::default()
        }
    }
}

impl RotoReport {
    /// A heading, and a label at its place, as characters of the file.
    fn labelled(&self, sort: &str, error: &ParseError) -> String {
        let file = &self.files[error.location.file];
        // As the drawing takes it: it panics where this is no such range.
        let range = error.location.character_range(&file.contents);
        let (kind, label) = (&error.kind, error.kind.label());
        let notes = error.note.iter().cloned();
        let hints = error
            .hints
            .iter()
            .map(|hint| format!("{}: {}", hint.location.start, hint.text));
        let more: Vec<_> = notes.chain(hints).collect();
        let name = &file.name;
        format!(
            "{sort} error: {kind}\n{name}, {range:?}: {label}{}",
            more.concat()
        )
    }
}

impl fmt::Display for RotoReport {
    fn fmt(&self, f: &mut fmt::Formatter<'_>) -> fmt::Result {
        for error in &self.errors {
            let words = match error {
                RotoError::Read(LoadError { path, err }) => {
                    format!("Could not read file `{path}`: {err}")
                }
                RotoError::Parse(error) => self.labelled("Parse", error),
                RotoError::Format(error) => self.labelled("Format", error),
                RotoError::Custom(words) => words.clone(),
            };
            f.write_str(&words)?;
        }
        Ok(())
    }
}
