//! A frame: the reader, then cuts at every declaration and the whole run.

use judge::{
    frame::{self, Frame},
    reader,
    refusal::Refusal,
    tree::Input,
};

use super::Tally;
use crate::Accepted;

/// Compares all that the port makes of a frame, with a width, in both modes
/// and by each rule.
pub fn compare(tally: &mut Tally, class: &str, bytes: &[u8], width: usize) {
    match frame::split_any_size(bytes) {
        Ok(frame) => compare_parts(tally, class, frame, width),
        Err(refusal) => {
            tally.count(&format!("frame, {class}"), refusal.number)
        }
    }
}

/// As [`compare`], on a source and an image of any size.
pub fn compare_parts(
    tally: &mut Tally,
    class: &str,
    frame: Frame,
    width: usize,
) {
    let Frame { source, image } = frame;
    let due = judged(source, image);
    let number = due.err().map_or(0, |refusal| refusal.number);
    tally.count(&format!("reader, {class}"), number);
    tally.expect("the reader", &due, &crate::check(source, image));
    #[cfg(feature = "calls")]
    super::cuts::compare(tally, class, frame, width);
    #[cfg(not(feature = "calls"))]
    let _ = width;
}

/// The judge's reader, in the port's terms. Declarations are those of the
/// original's own tree.
fn judged(source: &[u8], image: &[u8]) -> Result<Accepted, Refusal> {
    reader::read(source, image).map(|read| Accepted {
        comments: read.comments.len() as u64,
        tree: read.tree.at as u64,
        declarations: Input::new(&read, image).declarations() as u64,
    })
}
