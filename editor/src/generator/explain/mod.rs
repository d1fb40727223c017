//! What is wrong with a list of steps, in words for people. It decides
//! nothing: which step is wrong the proved writer has said.

mod due;
mod walk;
mod words;

pub use due::Due;

use super::Step;
use walk::Walk;

/// A step of a list, where it stands, and what was due there.
///
/// ```
/// use rrufthim::{NO_SPAN, Refusal, generator::{Builder, explain}, kind};
///
/// let mut builder = Builder::new();
/// builder.open(kind::TREE, NO_SPAN)?.absent()?.open(kind::CONST, NO_SPAN)?;
/// builder.open(kind::TEXT, NO_SPAN)?.text("RATE", 4)?.close()?;
/// builder.open(kind::LITERAL_EXPR, NO_SPAN)?; // the type is missing
/// let Err(Refusal::BadStep { at }) = builder.finish() else { panic!() };
/// let explained = explain(builder.list(), at);
/// assert_eq!(
///     explained.to_string(),
///     "step 7 at 43, `open 51 (LITERAL_EXPR) at 0..0`, in TREE > CONST, child 2: \
///      due is its type: OPTION, TYPE_PATH, NEVER, UNIT or RECORD_TYPE"
/// );
/// # Ok::<(), Refusal>(())
/// ```
#[derive(Clone, Debug, PartialEq, Eq)]
#[non_exhaustive]
pub struct Explanation {
    /// Which step it is, counted from 1.
    pub number: usize,
    /// Its offset in the list.
    pub at: usize,
    /// The step; `None` at the list's end, and where it is unknown or cut off
    /// or has a text that isn't UTF-8.
    pub step: Option<Step>,
    /// Whether the list ends there.
    pub ends: bool,
    /// The kinds of the records that are open there, the tree's first.
    pub within: Vec<u8>,
    /// How many children the last of them has, absent ones included.
    pub children: usize,
    /// What was due.
    pub due: Due,
    /// What is wrong with a step of a sort that was due.
    pub fault: Option<&'static str>,
}

/// What is to be known of the step at an offset of a list, which a refusal of
/// [`write_image`](super::write_image), or of a
/// [`Builder`](super::Builder), names ([`BadStep`](crate::Refusal::BadStep)).
/// The steps before it are right, if the writer has named this one.
///
/// What a builder turns down at once isn't in its list: then this is what was
/// due at the list's end.
pub fn explain(list: &[u8], at: usize) -> Explanation {
    let (mut walk, mut number, mut offset) = (Walk::default(), 1, 0);
    while offset < at {
        let Some(step) = Step::at(list, offset) else {
            break;
        };
        walk.follow(&step);
        offset += step.bytes();
        number += 1;
    }
    let step = Step::at(list, offset);
    let fault = step.as_ref().and_then(|step| walk.fault(step));
    Explanation {
        number,
        at: offset,
        ends: offset >= list.len(),
        step,
        within: walk.kinds(),
        children: walk.children(),
        due: walk.due(),
        fault,
    }
}
