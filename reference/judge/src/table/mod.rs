//! How often generated frames reach each case of document 01.

mod batches;
mod formulas;
mod moves;
mod report;
mod step_lists;
mod verdicts;

use std::{collections::BTreeMap, fmt::Write};

use crate::{
    answers::{self, stored},
    calls::{self, Call, Given},
    frame,
    generate::{self, CallCase, Class},
    grammar::{self, Child, Place},
    program::{self, Widths},
    reader::{self, Payload, Record},
    rows::{self, Row},
};

use batches::BatchCounts;
use formulas::FormulaCounts;
use moves::MoveCounts;
use step_lists::StepCounts;
use verdicts::VerdictCounts;

#[derive(Default)]
struct Counts {
    kinds: BTreeMap<u8, usize>,
    payloads: BTreeMap<(u8, &'static str, u8), usize>,
    optional: BTreeMap<(u8, usize), [usize; 2]>,
    depth: usize,
    row_depth: usize,
    refusals: BTreeMap<u8, usize>,
    row_kinds: BTreeMap<u32, usize>,
    origins: BTreeMap<u32, usize>,
    words: BTreeMap<u32, usize>,
    /// Answers to layout calls, and to rendering calls.
    calls: BTreeMap<u8, [usize; 2]>,
    /// Group numbers not wrapped, and wrapped.
    marks: [usize; 2],
}

/// The table over so many frames of each class, as Markdown.
pub fn table(seed: u64, count: u64) -> String {
    let mut out = String::from("# What generated frames reach\n\n");
    writeln!(out, "    judge table {seed} {count}\n").unwrap();
    let mut all = Counts::default();
    for (class, name) in Class::ALL {
        let accepted = all.add_class(class, seed, count);
        writeln!(out, "- {name}: {count} frames, {accepted} accepted")
            .unwrap();
    }
    for index in 0..count {
        all.add_calls(&generate::call_case(seed, index));
        all.add_calls(&generate::rule_case(seed, index));
        all.add_calls(&generate::two_case(seed, index));
        all.add_calls(&generate::allotment_list(seed, index));
        all.add_calls(&generate::handed_case(seed, index).1);
    }
    writeln!(
        out,
        "- lists of calls: {count}, as many with rules, as many on images of \
         version 2, as many with allotments, and as many from states inside a \
         row"
    )
    .unwrap();
    let mut lists = StepCounts::default();
    for case in generate::step_size_cases() {
        lists.add(&case.list);
    }
    for index in 0..count {
        lists.add(&generate::step_list(seed, index));
    }
    let sizes = generate::step_size_cases().len();
    writeln!(out, "- lists of steps: {count}, and {sizes} sizes").unwrap();
    let (batches, fixed) = BatchCounts::generated(seed, count);
    writeln!(out, "- batches: {count}, and {fixed} fixed ones").unwrap();
    let (moves, fixed) = MoveCounts::generated(seed, count);
    writeln!(out, "- images to move: {count}, and {fixed} fixed ones")
        .unwrap();
    let (verdicts, fixed) = VerdictCounts::generated(seed, count);
    writeln!(out, "- trees of operators: {count}, and {fixed} fixed ones")
        .unwrap();
    out + &all.report()
        + &lists.report(false)
        + &batches.report(false)
        + &moves.report(false)
        + &verdicts.report(false)
}

/// The same table over the stored frames and lists.
pub fn stored() -> String {
    let mut out = String::from("# What the stored answers hold\n\n");
    out.push_str("    judge stored-table\n\n");
    let mut all = Counts::default();
    let [mut count, mut bytes] = [0, 0];
    for frame in stored::frames() {
        all.add(&frame);
        count += 1;
        bytes += answers::frames::answered(&frame).len();
    }
    writeln!(out, "- frames: {count}, {bytes} bytes").unwrap();
    [count, bytes] = [0, 0];
    for case in stored::lists() {
        all.add_calls(&case);
        count += 1;
        bytes += answers::calls::answered(&case).len();
    }
    writeln!(out, "- lists of calls: {count}, {bytes} bytes").unwrap();
    let mut lists = StepCounts::default();
    [count, bytes] = [0, 0];
    for list in stored::step_lists() {
        lists.add(&list);
        count += 1;
        bytes += answers::steps::answered(&list).len();
    }
    writeln!(out, "- lists of steps: {count}, {bytes} bytes").unwrap();
    let (batches, count, bytes) = BatchCounts::stored();
    writeln!(out, "- batches: {count}, {bytes} bytes").unwrap();
    let (moves, count, bytes) = MoveCounts::stored();
    writeln!(out, "- moves: {count}, {bytes} bytes").unwrap();
    let (verdicts, count, bytes) = VerdictCounts::stored();
    writeln!(out, "- verdicts: {count}, {bytes} bytes").unwrap();
    let (formulas, count, bytes) = FormulaCounts::stored();
    writeln!(out, "- formulas: {count}, {bytes} bytes").unwrap();
    out + &all.report()
        + &lists.report(true)
        + &batches.report(true)
        + &moves.report(true)
        + &verdicts.report(true)
        + &formulas.report()
}

impl Counts {
    /// So many frames of a class; how many of them are accepted.
    fn add_class(&mut self, class: Class, seed: u64, count: u64) -> usize {
        let accepted =
            |all: &Self| all.refusals.get(&0).copied().unwrap_or(0);
        let before = accepted(self);
        for bytes in generate::frames(class, seed, count) {
            self.add(&bytes);
        }
        accepted(self) - before
    }

    fn add(&mut self, bytes: &[u8]) {
        let answer = program::answer(bytes, Widths::Supplied);
        let number = answer.as_ref().err().map_or(0, |r| r.number);
        *self.refusals.entry(number).or_default() += 1;
        let Ok(run) = answer else { return };
        let mut open: Vec<u32> = Vec::new();
        for (place, row) in (0..).zip(&run.rows) {
            open.retain(|after| *after > place);
            open.push(row.after);
            self.row_depth = self.row_depth.max(open.len());
            self.add_row(row);
        }
        for mark in run.marks {
            self.marks[usize::from(mark)] += 1;
        }
        let frame = frame::split(bytes).expect("accepted");
        let accepted =
            reader::read(frame.source, frame.image).expect("accepted");
        self.add_record(&accepted.tree, grammar::TREE);
    }

    fn add_calls(&mut self, case: &CallCase) {
        let given = Given {
            source: &case.source,
            image: &case.image,
        };
        let mut world = case.world.clone();
        for one in &case.calls {
            let answer = calls::call(given, &mut world, *one);
            let number = answer.err().map_or(0, |refusal| refusal.number);
            let counts = self.calls.entry(number).or_default();
            counts[usize::from(matches!(one, Call::Render(_)))] += 1;
        }
    }

    fn add_row(&mut self, row: &Row) {
        *self.row_kinds.entry(row.kind).or_default() += 1;
        if matches!(row.kind, rows::COMMENT | rows::STR | rows::ASCII) {
            *self.origins.entry(row.origin).or_default() += 1;
        }
        if row.origin == rows::WORDS && row.length > 0 {
            *self.words.entry(row.start).or_default() += 1;
        }
    }

    fn add_record(&mut self, record: &Record, place: Place) {
        *self.kinds.entry(record.kind).or_default() += 1;
        self.depth = self.depth.max(record.depth);
        if let Payload::Byte(byte) = record.payload {
            let under = match place {
                Place::Operator(4) => " under 62",
                Place::Operator(_) => " under 63",
                _ => "",
            };
            let key = (record.kind, under, byte);
            *self.payloads.entry(key).or_default() += 1;
        }
        let places = grammar::children(record.kind, place);
        for (index, child) in record.children.iter().enumerate() {
            let rule = places[index.min(places.len() - 1)];
            self.add_child(record.kind, index, child.as_ref(), rule);
        }
    }

    fn add_child(
        &mut self,
        kind: u8,
        index: usize,
        child: Option<&Record>,
        rule: Child,
    ) {
        if let Child::Maybe(_) = rule {
            let counts = self.optional.entry((kind, index)).or_default();
            counts[usize::from(child.is_some())] += 1;
        }
        let (Child::One(place) | Child::Maybe(place) | Child::Many(place)) =
            rule;
        if let Some(child) = child {
            self.add_record(child, place);
        }
    }
}
