//! How often batches give each answer, and for which cause; and their files.

use std::{collections::BTreeMap, fmt::Write};

use crate::{
    answers::{replay, stored},
    batch::{self, Cause, ROW},
    generate::{self, BatchCase},
};

const ACCEPTED: &str = "accepted";

/// Numbers that refuse a file, in their order.
const NUMBERS: [u32; 12] = [20, 1, 2, 3, 4, 5, 6, 7, 12, 15, 8, 9];
const NO_NINE: &str = " (unreachable: rows are never fewer than group \
    numbers, and 8 is tested first)";
const LONG_SOURCE: &str = " (unreachable: its source is over 60 KB)";

/// By their answers, where there is room.
#[derive(Default)]
pub(super) struct BatchCounts {
    batches: BTreeMap<&'static str, usize>,
    files: BTreeMap<u32, usize>,
}

impl BatchCounts {
    /// So many generated ones and all of the fixed list, of which it says how
    /// many there are.
    pub(super) fn generated(seed: u64, count: u64) -> (Self, usize) {
        let mut counts = BatchCounts::default();
        for index in 0..count {
            counts.add(&generate::batch_case(seed, index));
        }
        let fixed = generate::fixed_batches();
        for case in fixed {
            counts.add(&case.batch);
        }
        (counts, fixed.len())
    }

    /// Those that are stored, how many they are, and their bytes.
    pub(super) fn stored() -> (Self, usize, usize) {
        let mut counts = BatchCounts::default();
        for case in stored::batches() {
            counts.add(case);
        }
        let bytes = replay::batches_input().len();
        (counts, stored::batches().count(), bytes)
    }

    fn add(&mut self, case: &BatchCase) {
        let BatchCase { buffer, choice } = case;
        let answer = match batch::split(buffer) {
            Err(fault) => fault.cause.name(),
            Ok(_) => ACCEPTED,
        };
        *self.batches.entry(answer).or_default() += 1;
        let batched = batch::batch(buffer, *choice, usize::MAX, usize::MAX);
        let table = batched.map_or(Vec::new(), |batched| batched.table);
        for row in table.chunks(ROW) {
            *self.files.entry(row[0]).or_default() += 1;
        }
    }

    pub(super) fn report(&self, stored: bool) -> String {
        let mut out = String::from("\n## Answers to batches\n\n");
        out.push_str(
            "| Answer, and for 18 its cause | Count |\n|---|---:|\n",
        );
        let causes = Cause::ALL.map(|(_, name)| name);
        for answer in [ACCEPTED].into_iter().chain(causes) {
            let count = self.batches.get(answer).copied().unwrap_or(0);
            writeln!(out, "| {answer} | {count} |").unwrap();
        }
        out.push_str("\n## Answers to files of batches\n\n");
        out.push_str("| Refusal | Count |\n|---|---:|\n");
        let count = |number| self.files.get(number).copied().unwrap_or(0);
        writeln!(out, "| {ACCEPTED} | {} |", count(&0)).unwrap();
        for number in &NUMBERS {
            let why = match number {
                1 if stored => LONG_SOURCE,
                9 => NO_NINE,
                _ => "",
            };
            writeln!(out, "| {number}{why} | {} |", count(number)).unwrap();
        }
        out
    }
}
