//! Holds the port against the judge on generated inputs.

#[cfg(feature = "calls")]
mod allotments;
#[cfg(feature = "calls")]
mod batches;
#[cfg(feature = "calls")]
mod buffers;
#[cfg(feature = "calls")]
mod cuts;
#[cfg(feature = "calls")]
mod files;
#[cfg(feature = "calls")]
mod formulas;
mod frames;
#[cfg(feature = "calls")]
mod images;
#[cfg(feature = "calls")]
mod large;
#[cfg(feature = "calls")]
mod lists;
#[cfg(feature = "calls")]
mod moves;
#[cfg(feature = "calls")]
mod orders;
#[cfg(feature = "calls")]
mod points;
#[cfg(feature = "calls")]
mod ranges;
#[cfg(feature = "calls")]
mod reports;
#[cfg(feature = "calls")]
mod rooms;
#[cfg(feature = "calls")]
mod step_lists;
mod tally;
#[cfg(feature = "calls")]
pub mod texts;
#[cfg(feature = "calls")]
mod verdicts;
mod work;

#[cfg(feature = "calls")]
pub use buffers::PORT_WORDS;
#[cfg(feature = "calls")]
pub use reports::compare_with as compare_report;
pub use tally::Tally;
pub use work::{Item, Plan, one};
