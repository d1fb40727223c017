//! How often images to move give each answer, where there is room.

use std::{collections::BTreeMap, fmt::Write};

use crate::{
    answers::{replay, stored},
    generate::{self, MoveCase},
    moves::{Way, moved},
};

/// Numbers that refuse a move, in their order.
const NUMBERS: [u8; 9] = [1, 2, 3, 7, 4, 5, 6, 21, 17];
const LONG_SOURCE: &str = " (unreachable: its source is over 60 KB)";
const WIDE: &str =
    " (going back unreachable: its text is of more than 65,535 columns)";
const LONG_BODY: &str =
    " (unreachable: there is room, and its body is about 1 MB)";

/// By their answers, forward and back.
#[derive(Default)]
pub(super) struct MoveCounts(BTreeMap<u8, [usize; 2]>);

impl MoveCounts {
    /// So many generated ones and all of the fixed list, of which it says how
    /// many there are; each both ways.
    pub(super) fn generated(seed: u64, count: u64) -> (Self, usize) {
        let mut counts = MoveCounts::default();
        let fixed = generate::move_cases();
        for way in [Way::Forward, Way::Back] {
            for index in 0..count {
                counts.add(way, &generate::move_case(seed, index));
            }
            for case in fixed {
                counts.add(way, &case.of);
            }
        }
        (counts, fixed.len())
    }

    /// Those that are stored, how many they are, and their bytes.
    pub(super) fn stored() -> (Self, usize, usize) {
        let mut counts = MoveCounts::default();
        let all = stored::moves();
        for (way, case) in &all {
            counts.add(*way, case);
        }
        (counts, all.len(), replay::moves_input().len())
    }

    fn add(&mut self, way: Way, case: &MoveCase) {
        let answer = moved(way, &case.source, &case.image, usize::MAX);
        let number = answer.err().map_or(0, |refusal| refusal.number);
        let counts = self.0.entry(number).or_default();
        counts[usize::from(way == Way::Back)] += 1;
    }

    pub(super) fn report(&self, stored: bool) -> String {
        let mut out = String::from("\n## Answers to moves\n\n");
        out.push_str("| Refusal | Forward | Back |\n|---|---:|---:|\n");
        for number in [0].into_iter().chain(NUMBERS) {
            let [forward, back] =
                self.0.get(&number).copied().unwrap_or_default();
            let name = match number {
                0 => "accepted".into(),
                1 if stored => format!("1{LONG_SOURCE}"),
                21 if stored => format!("21{WIDE}"),
                17 if stored => format!("17{LONG_BODY}"),
                _ => number.to_string(),
            };
            writeln!(out, "| {name} | {forward} | {back} |").unwrap();
        }
        out
    }
}
