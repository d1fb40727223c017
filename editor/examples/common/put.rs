//! A text and its place: the rule by which a file is replaced.
//!
//! What stands in a target is somebody's work: it is replaced only if it is
//! the source that the text was made from.

use std::io;

use rrufthim::Place;

use super::{
    diff,
    order::Order,
    report::{Fate, Report},
    shown::shown,
    target::{Put, Target},
};

/// A text, and what is to be known of it before it is relied on.
pub struct Text<'t> {
    pub bytes: &'t [u8],
    /// The comments that it lacks.
    pub comments_left: &'t [Place],
    /// Whether it is too long to be formatted again.
    pub outgrown: bool,
}

/// Puts the text of a source in its place, or says that it should be there.
pub fn put(
    target: &Target,
    source: &[u8],
    text: &Text<'_>,
    order: &Order,
    report: &mut Report<'_>,
) {
    let (fate, words) = match settle(target, source, text.bytes, order) {
        Ok(settled) => settled,
        Err(error) => return report.fail(target.path(), &error),
    };
    if matches!(fate, Fate::Same | Fate::Changed) {
        report.remark(target.path(), text);
    }
    report.end(target.path(), fate, words);
    if order.diff && fate == Fate::Changed {
        let name = shown(target.path());
        report.show(&diff::unified(&name, target.held(), text.bytes));
    }
}

/// What becomes of a target, and what is said of it.
fn settle(
    target: &Target,
    source: &[u8],
    text: &[u8],
    order: &Order,
) -> io::Result<(Fate, &'static str)> {
    if target.held() == Some(text) {
        return Ok((Fate::Same, ""));
    }
    let newer = target.held().is_some_and(|held| held != source);
    if newer && !order.force {
        let words = "changed since its frame was made; left alone";
        return Ok((Fate::LeftAlone, words));
    }
    target.may_be_replaced()?;
    if !order.check && target.replace(text)? == Put::LeftAlone {
        let words = "changed while it was formatted; left alone";
        return Ok((Fate::LeftAlone, words));
    }
    let words = match (newer, order.check) {
        (false, false) => "changed",
        (false, true) => "would change",
        (true, false) => "overwritten, and had changed since its frame",
        (true, true) => {
            "would be overwritten, and has changed since its frame"
        }
    };
    Ok((Fate::Changed, words))
}
