//! Lists of steps: the image that is written, or the first step at fault.

use judge::{
    generate,
    steps::{self, Cause},
};

use super::{Tally, rooms};

/// A generated list, most of them damaged.
pub fn compare(tally: &mut Tally, seed: u64, index: u64) {
    let list = generate::step_list(seed, index);
    let heading = match steps::follow(&list) {
        Ok(_) => "steps".into(),
        Err(fault) => format!("steps, {}", name(fault.cause)),
    };
    compare_list(tally, &heading, &list);
}

/// A size of document 01 as a list.
pub fn compare_size(tally: &mut Tally, place: usize) {
    let case = &generate::step_size_cases()[place];
    compare_list(tally, "steps, sizes", &case.list);
}

pub(super) fn compare_list(tally: &mut Tally, heading: &str, list: &[u8]) {
    let due = steps::write(list, usize::MAX);
    let number = due.as_ref().err().map_or(0, |refusal| refusal.number);
    tally.count(heading, number);
    rooms::compare(tally, heading, &due, |output| crate::write(list, output));
}

fn name(cause: Cause) -> &'static str {
    let mut all = Cause::ALL.into_iter();
    all.find(|(known, _)| *known == cause)
        .expect("all are listed")
        .1
}
