//! How often lists of steps give each answer, and for which cause.

use std::{collections::BTreeMap, fmt::Write};

use crate::steps::{self, Cause};

/// Causes whose lists are longer than all that is stored.
const NOT_STORED: [&str; 2] = [TOO_LONG, "8,193rd comment"];
const ACCEPTED: &str = "accepted";
const TOO_LONG: &str = "17, body over 1,048,576 bytes";

/// By their answers, where there is room.
#[derive(Default)]
pub(super) struct StepCounts(BTreeMap<&'static str, usize>);

impl StepCounts {
    pub(super) fn add(&mut self, list: &[u8]) {
        let answer = match steps::follow(list) {
            Err(fault) => name(fault.cause),
            Ok(_) if steps::write(list, usize::MAX).is_err() => TOO_LONG,
            Ok(_) => ACCEPTED,
        };
        *self.0.entry(answer).or_default() += 1;
    }

    pub(super) fn report(&self, stored: bool) -> String {
        let mut out = String::from("\n## Answers to lists of steps\n\n");
        out.push_str(
            "| Answer, and for 16 its cause | Count |\n|---|---:|\n",
        );
        let causes = Cause::ALL.map(|(_, name)| name);
        for answer in [ACCEPTED].into_iter().chain(causes).chain([TOO_LONG]) {
            let count = self.0.get(answer).copied().unwrap_or(0);
            let left_out = stored && NOT_STORED.contains(&answer);
            let why = match left_out {
                true => " (unreachable: its list is over 60 KB)",
                false => "",
            };
            writeln!(out, "| {answer}{why} | {count} |").unwrap();
        }
        out
    }
}

fn name(cause: Cause) -> &'static str {
    let mut all = Cause::ALL.into_iter();
    let found = all.find(|(known, _)| *known == cause);
    found.expect("all causes are listed").1
}
