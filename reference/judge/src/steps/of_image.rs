//! The steps of an image: comments, then the tree's records in reading
//! order.

use std::ops::Range;

use super::Step;
use crate::{
    reader::{self, Accepted, Payload, Reading, Record, Version},
    refusal::Refusal,
};

/// The steps of an image of version 1 that is read with its source; refusals
/// 1 to 7.
pub fn of_image(source: &[u8], image: &[u8]) -> Result<Vec<Step>, Refusal> {
    let (one, strict) = (Version::One, Reading::Strict);
    let read = reader::read_version(source, image, one, strict)?;
    Ok(of_read(&read))
}

/// The same of what was read.
pub fn of_read(read: &Accepted) -> Vec<Step> {
    let comments = read.comments.iter().map(|comment| {
        let (start, end) = numbers(comment);
        Step::Comment { start, end }
    });
    let mut steps: Vec<Step> = comments.collect();
    of_record(&mut steps, &read.tree);
    steps
}

/// A record is opened, gets its payload and its children, and is closed.
pub fn of_record(steps: &mut Vec<Step>, record: &Record) {
    let (start, end) = numbers(&record.span);
    let kind = record.kind;
    steps.push(Step::Open { kind, start, end });
    match record.payload {
        Payload::Nothing => {}
        Payload::Byte(byte) => steps.push(Step::Payload(byte)),
        Payload::Text { width, text } => {
            let width = width.expect("an image of version 1");
            let text = text.into();
            steps.push(Step::Text { width, text });
        }
    }
    for child in &record.children {
        match child {
            Some(child) => of_record(steps, child),
            None => steps.push(Step::Absent),
        }
    }
    steps.push(Step::Close);
}

/// Both fit, as they were read from four bytes each.
fn numbers(span: &Range<usize>) -> (u32, u32) {
    (span.start as u32, span.end as u32)
}
