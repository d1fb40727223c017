//! How often trees are read back the same, or which rule is broken first.

use std::{collections::BTreeMap, fmt::Write};

use crate::{
    answers::{replay, stored},
    generate::{self, OperatorCase},
    reader,
    reads_back::{Rule, operands},
};

/// Numbers that refuse a tree, in their order.
const NUMBERS: [u8; 7] = [1, 2, 3, 7, 4, 5, 6];
const LONG_SOURCE: &str = " (unreachable: its source is over 60 KB)";

/// By the number that refuses them, or the rule that is broken first.
#[derive(Default)]
pub(super) struct VerdictCounts(BTreeMap<Result<Option<Rule>, u8>, usize>);

impl VerdictCounts {
    /// So many generated ones and all of the fixed list, of which it says how
    /// many there are.
    pub(super) fn generated(seed: u64, count: u64) -> (Self, usize) {
        let mut counts = VerdictCounts::default();
        for index in 0..count {
            counts.add(&generate::operator_case(seed, index));
        }
        let fixed = generate::operator_cases();
        for case in fixed {
            counts.add(&case.of);
        }
        (counts, fixed.len())
    }

    /// Those that are stored, how many they are, and their bytes.
    pub(super) fn stored() -> (Self, usize, usize) {
        let mut counts = VerdictCounts::default();
        let all = stored::verdicts();
        for case in &all {
            counts.add(case);
        }
        (counts, all.len(), replay::verdicts_input().len())
    }

    fn add(&mut self, case: &OperatorCase) {
        let read = reader::read(&case.source, &case.image);
        let answer = match read {
            Ok(read) => Ok(operands(&read).first().map(|one| one.rule)),
            Err(refusal) => Err(refusal.number),
        };
        *self.0.entry(answer).or_default() += 1;
    }

    pub(super) fn report(&self, stored: bool) -> String {
        let mut out = String::from("\n## Verdicts on trees\n\n");
        out.push_str("| Answer | Count |\n|---|---:|\n");
        let count = |answer| self.0.get(&answer).copied().unwrap_or(0);
        let same = count(Ok(None));
        writeln!(out, "| read back the same | {same} |").unwrap();
        for (rule, name) in Rule::ALL {
            let first = count(Ok(Some(rule)));
            writeln!(out, "| differently, the first is {name} | {first} |")
                .unwrap();
        }
        for number in NUMBERS {
            let refused = count(Err(number));
            let why = match number {
                1 if stored => LONG_SOURCE,
                _ => "",
            };
            writeln!(out, "| refused {number}{why} | {refused} |").unwrap();
        }
        out
    }
}
