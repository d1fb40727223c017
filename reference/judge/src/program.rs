//! What the program `rotofmt` must answer to a frame.

use crate::{
    choice::Choice,
    driver::{self, Run},
    frame::{self, Frame},
    reader::{self, Reading},
    refusal::{Refusal, refusal},
    rows, rule,
    tree::Input,
};

pub const ROWS: usize = 1_800;
pub const MARKS: u64 = 1_800;
pub const OUTPUT: usize = 65_536;

/// Whose widths the formatter gets.
#[derive(Clone, Copy, Debug, PartialEq, Eq)]
pub enum Widths {
    /// Those in the image, as document 01 demands.
    Supplied,
    /// Those of `unicode-width`, to test supplied ones.
    True,
}

/// Runs the formatter on a source and an image of any legal size.
pub fn format(frame: Frame, widths: Widths) -> Result<Run, Refusal> {
    format_as(frame, widths, Choice::REFERENCE)
}

/// The same by its caller's choice: 20, the reader's refusals, 12 and 15. The
/// reference's rule is that of supplied widths, so 20 for a first byte 2.
pub fn format_as(
    frame: Frame,
    widths: Widths,
    choice: Choice,
) -> Result<Run, Refusal> {
    format_by(frame, widths, choice, Reading::Strict)
}

/// The same of an image that is read otherwise.
pub fn format_by(
    frame: Frame,
    widths: Widths,
    choice: Choice,
    reading: Reading,
) -> Result<Run, Refusal> {
    rule::check_for(choice.rule, frame.image)?;
    let accepted = reader::read_by(frame.source, frame.image, reading)?;
    choice.check()?;
    let input = Input::new(&accepted, frame.image);
    let _held = (widths == Widths::Supplied).then(|| input.supply_widths());
    Ok(driver::run_as(&input, choice))
}

/// What the program makes of a frame: 13, then as [`within_limits`].
pub fn answer(bytes: &[u8], widths: Widths) -> Result<Run, Refusal> {
    within_limits(frame::split(bytes)?, widths)
}

/// The same of an archived image, which two calls format: by the earlier rule.
pub fn answer_archived(bytes: &[u8]) -> Result<Run, Refusal> {
    let frame = frame::split(bytes)?;
    within_limits_by(frame, Widths::Supplied, Reading::Earlier)
}

/// Runs the formatter with the program's rows, marks and output: 20 for a first
/// byte 2, the reader's refusals, then 8, 9, 10.
pub fn within_limits(frame: Frame, widths: Widths) -> Result<Run, Refusal> {
    within_limits_by(frame, widths, Reading::Strict)
}

/// The same of an image that is read otherwise.
pub fn within_limits_by(
    frame: Frame,
    widths: Widths,
    reading: Reading,
) -> Result<Run, Refusal> {
    let run = format_by(frame, widths, Choice::REFERENCE, reading)?;
    fits(&run).map(|()| run)
}

/// Whether the program's rows, marks and output are enough: 8, 9, 10.
pub fn fits(run: &Run) -> Result<(), Refusal> {
    has_rows(run)?;
    if run.text.len() > OUTPUT {
        return Err(refusal(10, run.text.len()));
    }
    Ok(())
}

/// Whether its rows and marks are: 8, 9.
pub fn has_rows(run: &Run) -> Result<(), Refusal> {
    if run.rows.len() > ROWS {
        return Err(refusal(8, run.rows.len()));
    }
    let marks = rows::marks_needed(&run.rows);
    if marks > MARKS {
        return Err(Refusal {
            number: 9,
            place: marks,
        });
    }
    Ok(())
}

/// The bytes that the program writes.
pub fn output(bytes: &[u8], widths: Widths) -> String {
    match answer(bytes, widths) {
        Ok(run) => run.text,
        Err(refusal) => format!("{refusal}\n"),
    }
}
