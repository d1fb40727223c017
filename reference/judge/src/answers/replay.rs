//! What the port's programs that replay answers are run on, and what they
//! must write.

use std::{collections::BTreeMap, fmt::Write};

use super::{
    batches, calls, formulas, frames, moves, steps, stored, verdicts,
};
use crate::{
    batch::{self, ROW},
    calls::{self as layout_and_rendering, Call, Given},
    driver::Run,
    formulas as small,
    generate::{self, CallCase},
    moves::moved,
    program::{self, Widths},
    reads_back::{Verdict, reads_back},
    refusal::Refusal,
    steps as writer,
};

/// How often each refusal number was given, 0 for an accepted one.
type Numbers = BTreeMap<u8, usize>;

/// The stored lists, and behind them those that try rendering, rules, and
/// allotments.
pub fn lists() -> impl Iterator<Item = CallCase> {
    stored::lists()
        .chain(generate::rendering_cases())
        .chain(generate::rule_cases())
        .chain(generate::allotment_cases())
}

/// The lists with their answers.
pub fn calls_input() -> Vec<u8> {
    lists().flat_map(|case| calls::answered(&case)).collect()
}

/// The frames with their answers.
pub fn frames_input() -> Vec<u8> {
    stored::frames()
        .flat_map(|f| frames::answered(&f))
        .collect()
}

/// The lists of steps with their answers.
pub fn steps_input() -> Vec<u8> {
    let lists = stored::step_lists().into_iter();
    lists.flat_map(|list| steps::answered(&list)).collect()
}

/// How often each answer to a list of steps is given, and that none differs.
pub fn steps_output() -> String {
    let mut out = String::new();
    let mut numbers = Numbers::new();
    for list in stored::step_lists() {
        let answer = writer::write(&list, usize::MAX);
        let number = answer.err().map_or(0, |refusal| refusal.number);
        *numbers.entry(number).or_default() += 1;
    }
    put_numbers(&mut out, "lists of steps", &numbers);
    put_end(&mut out, "lists of steps", numbers.values().sum());
    out
}

/// The images to move with their answers.
pub fn moves_input() -> Vec<u8> {
    let all = stored::moves().into_iter();
    all.flat_map(|(way, case)| moves::answered(way, &case))
        .collect()
}

/// How often each answer to an image to move is given, and that none differs.
pub fn moves_output() -> String {
    let mut out = String::new();
    let mut numbers = Numbers::new();
    for (way, case) in stored::moves() {
        let answer = moved(way, &case.source, &case.image, usize::MAX);
        let number = answer.err().map_or(0, |refusal| refusal.number);
        *numbers.entry(number).or_default() += 1;
    }
    put_numbers(&mut out, "moves", &numbers);
    put_end(&mut out, "moves", numbers.values().sum());
    out
}

/// The trees with their answers.
pub fn verdicts_input() -> Vec<u8> {
    let all = stored::verdicts().into_iter();
    all.flat_map(|case| verdicts::answered(&case)).collect()
}

/// How often each answer to a tree is given, and how many verdicts are no; and
/// that none differs.
pub fn verdicts_output() -> String {
    let mut out = String::new();
    let [mut numbers, mut no] = [const { Numbers::new() }; 2];
    for case in stored::verdicts() {
        let answer = reads_back(&case.source, &case.image);
        if let Ok(Verdict::Differs(_)) = answer {
            *no.entry(0).or_default() += 1;
        }
        let number = answer.err().map_or(0, |refusal| refusal.number);
        *numbers.entry(number).or_default() += 1;
    }
    put_numbers(&mut out, "verdicts", &numbers);
    put_numbers(&mut out, "verdicts of no", &no);
    put_end(&mut out, "verdicts", numbers.values().sum());
    out
}

/// The sizes and places of formulas with their answers.
pub fn formulas_input() -> Vec<u8> {
    stored::formulas().flat_map(formulas::answered).collect()
}

/// How often each answer to a size and a place is given, and that none
/// differs.
pub fn formulas_output() -> String {
    let mut out = String::new();
    let mut numbers = Numbers::new();
    for (size, place) in stored::formulas() {
        let answer = small::write(size, place, usize::MAX);
        let number = answer.err().map_or(0, |refusal| refusal.number);
        *numbers.entry(number).or_default() += 1;
    }
    put_numbers(&mut out, "formulas", &numbers);
    put_end(&mut out, "formulas", numbers.values().sum());
    out
}

/// The batches with their answers.
pub fn batches_input() -> Vec<u8> {
    stored::batches().flat_map(batches::answered).collect()
}

/// How often each answer to a file of a batch is given, and to a batch, and
/// that none differs.
pub fn batches_output() -> String {
    let mut out = String::new();
    let [mut files, mut whole] = [const { Numbers::new() }; 2];
    for case in stored::batches() {
        let (room, choice) = (usize::MAX, case.choice);
        let answer = batch::batch(&case.buffer, choice, room, room);
        let number = answer.as_ref().err().map_or(0, |r| r.number);
        *whole.entry(number).or_default() += 1;
        let table = answer.map_or(Vec::new(), |batched| batched.table);
        for row in table.chunks(ROW) {
            *files.entry(row[0] as u8).or_default() += 1;
        }
    }
    put_numbers(&mut out, "files", &files);
    put_numbers(&mut out, "batches", &whole);
    put_end(&mut out, "batches", whole.values().sum());
    out
}

/// How often each answer to a call is given, and that no list differs.
pub fn calls_output() -> String {
    let mut out = String::new();
    let mut calls = Calls::default();
    let mut count = 0;
    for case in lists() {
        count += 1;
        calls.add(&case);
    }
    put_numbers(&mut out, "layout calls", &calls.laid);
    put_numbers(&mut out, "rendering calls", &calls.rendered);
    put_numbers(&mut out, "archive layout calls", &calls.archived);
    put_end(&mut out, "lists", count);
    out
}

/// How often each answer to a frame is given, and by the archive entry to one
/// that is refused for its comments, and that none differs.
pub fn frames_output() -> String {
    let mut out = String::new();
    let [mut run, mut archived] = [const { Numbers::new() }; 2];
    let number = |answer: Result<Run, Refusal>| {
        answer.err().map_or(0, |refusal| refusal.number)
    };
    for frame in stored::frames() {
        let answer = program::answer(&frame, Widths::Supplied);
        if frames::is_of_comments(&answer) {
            let answer = program::answer_archived(&frame);
            *archived.entry(number(answer)).or_default() += 1;
        }
        *run.entry(number(answer)).or_default() += 1;
    }
    put_numbers(&mut out, "frames", &run);
    put_numbers(&mut out, "archived frames", &archived);
    put_end(&mut out, "frames", run.values().sum());
    out
}

/// The answers to calls, by the entry at which they are made.
#[derive(Default)]
struct Calls {
    laid: Numbers,
    rendered: Numbers,
    archived: Numbers,
}

impl Calls {
    fn add(&mut self, case: &CallCase) {
        let given = Given {
            source: &case.source,
            image: &case.image,
        };
        let mut world = case.world.clone();
        let calls = &case.calls;
        let answers = layout_and_rendering::run(given, &mut world, calls);
        for (call, answer) in calls.iter().zip(answers) {
            let numbers = match call {
                Call::Layout(args) if args.archive => &mut self.archived,
                Call::Layout(_) => &mut self.laid,
                Call::Render(_) => &mut self.rendered,
            };
            let number = answer.err().map_or(0, |refusal| refusal.number);
            *numbers.entry(number).or_default() += 1;
        }
    }
}

fn put_numbers(out: &mut String, what: &str, numbers: &Numbers) {
    for (number, count) in numbers {
        match number {
            0 => writeln!(out, "{what} accepted: {count}"),
            _ => writeln!(out, "{what} refused with {number}: {count}"),
        }
        .unwrap();
    }
}

fn put_end(out: &mut String, what: &str, count: usize) {
    writeln!(out, "{what}: {count}\ndiffer: 0").unwrap();
}
