//! How often a size and a place are answered with an image.

use std::{collections::BTreeMap, fmt::Write};

use crate::{
    answers::{replay, stored},
    formulas::write,
};

/// How many images of each size there are, and by which number others are
/// refused.
#[derive(Default)]
pub(super) struct FormulaCounts(BTreeMap<(u8, usize), usize>);

impl FormulaCounts {
    /// Those that are stored, how many they are, and their bytes.
    pub(super) fn stored() -> (Self, usize, usize) {
        let mut counts = FormulaCounts::default();
        for (size, place) in stored::formulas() {
            let key = match write(size, place, usize::MAX) {
                Ok(_) => (0, size),
                Err(refusal) => (refusal.number, 0),
            };
            *counts.0.entry(key).or_default() += 1;
        }
        let count = stored::formulas().count();
        (counts, count, replay::formulas_input().len())
    }

    pub(super) fn report(&self) -> String {
        let mut out = String::from("\n## Images of formulas\n\n");
        out.push_str("| Answer | Count |\n|---|---:|\n");
        for ((number, size), count) in &self.0 {
            match number {
                0 => writeln!(out, "| of size {size} | {count} |"),
                _ => writeln!(out, "| refused {number} | {count} |"),
            }
            .unwrap();
        }
        out
    }
}
