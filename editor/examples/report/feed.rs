//! What the program `report` reads, of frames: the same files, each with two
//! lengths before it in place of one.

use std::{io, path::Path};

use super::common::{
    frame::Frame,
    report::{Fate, Report},
};

/// All of it or nothing: the program numbers the files, and a table that lacks
/// one looks like one that doesn't.
pub(crate) fn write(frames: &[impl AsRef<Path>], report: &mut Report<'_>) {
    let mut feed = Vec::new();
    let mut whole = report.paths_failed() == 0;
    for path in frames {
        let path = path.as_ref();
        let read = Frame::read(path).and_then(|frame| add(&mut feed, &frame));
        if let Err(error) = read {
            report.end(path, Fate::Failed, &error.to_string());
            whole = false;
        }
    }
    match whole {
        true => report.show(&feed),
        false => report.blame("report: nothing is written"),
    }
}

fn add(feed: &mut Vec<u8>, frame: &Frame) -> io::Result<()> {
    let parts = [&frame.source, &frame.image];
    for part in parts {
        let length = u32::try_from(part.len()).map_err(io::Error::other)?;
        feed.extend(length.to_be_bytes());
    }
    parts.into_iter().for_each(|part| feed.extend(part));
    Ok(())
}
