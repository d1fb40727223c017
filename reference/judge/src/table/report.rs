//! The counts as Markdown.

use std::fmt::{Display, Write};

use super::Counts;
use crate::rows;

/// Why the program never gives some refusals.
const NEVER: [(u8, &str); 4] = [
    (
        1,
        "a frame ends at 32,768 bytes, so its source never passes 65,536",
    ),
    (
        9,
        "rows are never fewer than group numbers, and 8 is tested first",
    ),
    (
        11,
        "the program renders the rows that it has laid out itself",
    ),
    (
        12,
        "the program starts from fresh states and lays out to the end",
    ),
];

impl Counts {
    pub(super) fn report(&self) -> String {
        let mut out = String::new();
        let kinds = known_kinds().into_iter();
        heading(&mut out, "Record kinds in accepted frames", "Kind");
        for kind in kinds {
            line(&mut out, kind, self.kinds.get(&kind));
        }
        writeln!(out, "\nDeepest record: {}.", self.depth).unwrap();
        self.report_payloads(&mut out);
        self.report_optional(&mut out);
        heading(&mut out, "Row kinds", "Kind");
        for (kind, name) in (0..).zip(rows::KIND_NAMES) {
            line(
                &mut out,
                format!("{kind} {name}"),
                self.row_kinds.get(&kind),
            );
        }
        writeln!(out, "\nDeepest row: {}.", self.row_depth).unwrap();
        let [flat, wrapped] = self.marks;
        writeln!(out, "\nGroups: {wrapped} wrapped, {flat} not.").unwrap();
        heading(&mut out, "Text origins", "Origin");
        for (origin, name) in (0..).zip(["source", "image", "fixed words"]) {
            line(
                &mut out,
                format!("{origin} {name}"),
                self.origins.get(&origin),
            );
        }
        heading(&mut out, "Fixed words", "Word");
        for word in rows::WORD_LIST {
            let start = rows::word_start(word).expect("a listed word") as u32;
            line(
                &mut out,
                format!("`` {} ``", word.replace('|', "\\|")),
                self.words.get(&start),
            );
        }
        self.report_refusals(&mut out);
        self.report_calls(&mut out);
        out
    }

    fn report_payloads(&self, out: &mut String) {
        heading(out, "Payload bytes", "Kind and value");
        let all = [
            (50, "", 2),
            (86, " under 62", 4),
            (86, " under 63", 13),
            (87, "", 3),
        ];
        for (kind, under, most) in all {
            for value in 0..=most {
                let count = self.payloads.get(&(kind, under, value));
                line(out, format!("{kind}{under}, {value}"), count);
            }
        }
    }

    fn report_optional(&self, out: &mut String) {
        out.push_str("\n## Children marked `?`\n\n");
        out.push_str("| Kind, place | Absent | Present |\n|---|---:|---:|\n");
        for ((kind, place), [absent, present]) in &self.optional {
            writeln!(out, "| {kind}, {place} | {absent} | {present} |")
                .unwrap();
        }
    }

    fn report_refusals(&self, out: &mut String) {
        heading(out, "Answers of the program", "Refusal");
        line(out, "accepted", self.refusals.get(&0));
        for number in (1..=13).chain([20]) {
            let why = NEVER.iter().find(|(never, _)| *never == number);
            let name = match why {
                Some((_, why)) => format!("{number} (unreachable: {why})"),
                None => number.to_string(),
            };
            line(out, name, self.refusals.get(&number));
        }
    }

    /// Refusals that a kind of call doesn't know are left out.
    fn report_calls(&self, out: &mut String) {
        out.push_str("\n## Answers to calls\n\n");
        out.push_str("| Refusal | Layout | Rendering |\n|---|---:|---:|\n");
        let layout = [0, 1, 2, 3, 4, 5, 6, 7, 8, 12, 20];
        let rendering = [0, 1, 2, 3, 9, 10, 11, 12, 15, 20, 22, 23];
        for number in (0..=12).chain([15, 20, 22, 23]) {
            let counts = self.calls.get(&number).copied().unwrap_or_default();
            let known =
                [&layout[..], &rendering].map(|k| k.contains(&number));
            let [laid, rendered] = [0, 1].map(|kind| {
                let count = counts[kind].to_string();
                if known[kind] { count } else { "-".into() }
            });
            let name = match number {
                0 => "accepted".into(),
                _ => number.to_string(),
            };
            writeln!(out, "| {name} | {laid} | {rendered} |").unwrap();
        }
    }
}

fn known_kinds() -> Vec<u8> {
    let singles =
        [1, 2, 3, 4, 20, 21, 22, 23, 80, 81, 82, 83, 84, 85, 86, 87];
    let ranges = [10..=16, 30..=32, 40..=44, 50..=70];
    let mut kinds: Vec<u8> = ranges.into_iter().flatten().collect();
    kinds.extend(singles);
    kinds.sort();
    kinds
}

fn heading(out: &mut String, title: &str, first: &str) {
    writeln!(out, "\n## {title}\n\n| {first} | Count |\n|---|---:|").unwrap();
}

fn line(out: &mut String, name: impl Display, count: Option<&usize>) {
    writeln!(out, "| {name} | {} |", count.unwrap_or(&0)).unwrap();
}
