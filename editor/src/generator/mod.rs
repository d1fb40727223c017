//! Images from a generator, which has no tree of ours to encode: a
//! [`Builder`] takes steps, and the proved writer turns their list into an
//! image. [`steps`] goes the other way, for who wants to look at an image.
//!
//! For each image there is exactly one list of steps, and for each list that
//! the writer accepts exactly one image (docs/02-change-requests.md, 5/14).
//!
//! Ready images to try a program on, of every formula up to a size, are given
//! by [`formulas`](crate::formulas()).

mod builder;
mod calls;
mod explain;
mod grammar;
mod step;

pub use builder::Builder;
pub use calls::{read, steps, write_image, write_list};
pub use explain::{Due, Explanation, explain};
pub use step::Step;
