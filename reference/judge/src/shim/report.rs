//! The shapes of errors and reports that the formatter uses.

use crate::{
    load::SourceFile,
    parser::{ParseError, meta::Spans},
};

#[derive(Debug)]
pub enum RotoError {
    Parse(#[allow(dead_code)] ParseError),
    Custom(String),
}

#[allow(dead_code)]
#[derive(Debug)]
pub struct RotoReport {
    pub files: Vec<SourceFile>,
    pub errors: Vec<RotoError>,
    pub spans: Spans,
}
