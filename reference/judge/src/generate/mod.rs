//! Frames to try, each determined by its class, a seed and an index.

mod allotments;
mod batch_cases;
mod batches;
mod broad;
mod damaged;
mod edges;
mod entries;
mod feet;
mod lists;
mod modes;
mod move_cases;
mod moves;
mod operators;
mod orders;
mod random_rows;
mod ranges;
mod realistic;
mod rendering;
mod report_inputs;
mod rule_cases;
mod rules;
mod shape;
mod sizes;
mod step_lists;
mod step_sizes;
mod widths;
mod wild;

use std::ops::Range;

use crate::{
    frame,
    image::{self, Tree},
    random::Random,
};

pub use allotments::{
    Document, Twist, document, fixed as allotment_cases,
    handed as handed_case, list as allotment_list,
};
pub use batch_cases::{Case as FixedBatch, cases as fixed_batches};
pub use batches::{Case as BatchCase, case as batch_case};
pub use broad::frame as broad_frame;
pub use feet::frame as foot_frame;
pub use lists::{
    CallCase, case as call_case, cut_case, foot_case, unreadable_case,
};
pub use move_cases::{Case as FixedMove, cases as move_cases};
pub use moves::{Case as MoveCase, case as move_case, two_case, two_frame};
pub use operators::{
    Case as OperatorCase, FixedCase as FixedOperators, case as operator_case,
    cases as operator_cases,
};
pub use orders::{
    Case as OrderCase, Way as OrderWay, case as order_case,
    list_case as order_list,
};
pub use ranges::{RangeCase, case as range_case};
pub use rendering::cases as rendering_cases;
pub use report_inputs::input as report_input;
pub use rule_cases::{cases as rule_cases, every_text};
pub use rules::case as rule_case;
pub use sizes::{
    Case as SizeCase, call_cases as size_call_cases, cases as size_cases,
};
pub use step_lists::list as step_list;
pub use step_sizes::{Case as StepSizeCase, cases as step_size_cases};
pub use widths::wide_frame;

/// What a generator aims at.
#[derive(Clone, Copy, Debug, PartialEq, Eq)]
pub enum Class {
    /// Programs as a parser would give them, with true spans and widths.
    Realistic,
    /// Legal trees with any spans, comments and widths.
    Wild,
    /// Lines that end at columns 78 to 82.
    Edges,
    /// Frames that some test should turn down.
    Damaged,
    /// The document's sizes, and one more.
    Sizes,
}

impl Class {
    pub const ALL: [(Class, &str); 5] = [
        (Class::Realistic, "realistic"),
        (Class::Wild, "wild"),
        (Class::Edges, "edges"),
        (Class::Damaged, "damaged"),
        (Class::Sizes, "sizes"),
    ];

    pub fn from_name(name: &str) -> Option<Class> {
        let known = Class::ALL.iter().find(|(_, known)| *known == name);
        known.map(|(class, _)| *class)
    }
}

/// The first frames of a class.
pub fn frames(
    class: Class,
    seed: u64,
    count: u64,
) -> impl Iterator<Item = Vec<u8>> {
    (0..count).map(move |index| frame(class, seed, index))
}

/// One frame of a class.
pub fn frame(class: Class, seed: u64, index: u64) -> Vec<u8> {
    let mut random = Random::new(class as u64, seed, index);
    match class {
        Class::Realistic => realistic::draft(&mut random).frame(),
        Class::Wild => wild::draft(&mut random).frame(),
        Class::Edges => edges::draft(&mut random).frame(),
        Class::Damaged => damaged::frame(&mut random),
        Class::Sizes => {
            let cases = sizes::cases();
            let case = &cases[(index % cases.len() as u64) as usize];
            frame::join(&case.source, &case.image)
        }
    }
}

/// A frame before it is written.
#[derive(Clone, Debug)]
struct Draft {
    source: String,
    comments: Vec<Range<usize>>,
    tree: Tree,
}

impl Draft {
    fn frame(&self) -> Vec<u8> {
        frame::join(self.source.as_bytes(), &self.image())
    }

    fn image(&self) -> Vec<u8> {
        image::write(&self.comments, &self.tree)
    }
}
