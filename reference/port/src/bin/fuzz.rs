//! Feeds the programs `rotofmt` and `report` bytes of all sorts on their
//! standard input and holds what they write against the judge.

use std::{
    collections::BTreeMap,
    env,
    process::ExitCode,
    time::{Duration, Instant},
};

use judge::{
    figures::report,
    generate::{self, Class},
    program::{self, Widths},
    random::Random,
};
use port::program::written;

const USAGE: &str = "usage: fuzz ROTOFMT REPORT SECONDS SEED\n";

const CLASSES: [Class; 4] =
    [Class::Realistic, Class::Wild, Class::Edges, Class::Damaged];

/// What a program is fed by seed and index, and what it must write, with a
/// word for it.
struct Fed<'p> {
    program: &'p str,
    input: fn(u64, u64) -> Vec<u8>,
    due: fn(&[u8]) -> (String, Vec<u8>),
}

fn main() -> ExitCode {
    let arguments: Vec<String> = env::args().skip(1).collect();
    let [rotofmt, report, seconds, seed] = arguments.as_slice() else {
        eprint!("{USAGE}");
        return ExitCode::FAILURE;
    };
    let (Ok(seconds), Ok(seed)) = (seconds.parse(), seed.parse()) else {
        eprint!("{USAGE}");
        return ExitCode::FAILURE;
    };
    let frames = Fed {
        program: rotofmt,
        input: frame,
        due: text,
    };
    let files = Fed {
        program: report,
        input: files,
        due: table,
    };
    let time = Duration::from_secs(seconds);
    let differences = [frames, files].map(|fed| fed.fuzz(time, seed));
    match differences {
        [0, 0] => ExitCode::SUCCESS,
        _ => ExitCode::FAILURE,
    }
}

impl Fed<'_> {
    /// Runs until the time is over; the number of differences.
    fn fuzz(&self, time: Duration, seed: u64) -> u64 {
        let start = Instant::now();
        let mut counts: BTreeMap<String, u64> = BTreeMap::new();
        let mut differences = 0;
        let mut index = 0;
        while start.elapsed() < time {
            let input = (self.input)(seed, index);
            let (word, due) = (self.due)(&input);
            *counts.entry(word).or_default() += 1;
            let got = written(self.program, &input);
            if got.as_ref() != Ok(&due) {
                differences += 1;
                let why = got.err().unwrap_or("differs".into());
                println!("seed {seed}, index {index}: {why}");
            }
            index += 1;
        }
        for (word, count) in counts {
            println!("{count} {word}");
        }
        println!(
            "{}: {index} inputs in {:.0} seconds, {differences} differences",
            self.program,
            start.elapsed().as_secs_f64()
        );
        differences
    }
}

/// The text of a frame, or the line that refuses it.
fn text(frame: &[u8]) -> (String, Vec<u8>) {
    match program::answer(frame, Widths::Supplied) {
        Ok(run) => ("formatted".into(), run.text.into()),
        Err(r) => {
            let line = format!("refused {} at {}\n", r.number, r.place);
            (format!("refused {:2}", r.number), line.into_bytes())
        }
    }
}

/// The table of files.
fn table(input: &[u8]) -> (String, Vec<u8>) {
    let table = report::output(input);
    let word = match table.contains("the input ends inside file ") {
        true => "cut",
        false => "whole",
    };
    (word.into(), table.into_bytes())
}

/// Files of all classes, changed or not, or bytes at random.
fn files(seed: u64, index: u64) -> Vec<u8> {
    let mut random = Random::new(78, seed, index);
    if random.once_in(20) {
        return noise(&mut random, 200);
    }
    let mut input = generate::report_input(seed, index);
    for _ in 0..random.below(3) {
        change(&mut random, &mut input);
    }
    input
}

/// An input: bytes at random, or a generated frame, whole or changed.
fn frame(seed: u64, index: u64) -> Vec<u8> {
    let mut random = Random::new(77, seed, index);
    if random.once_in(10) {
        let most = if random.once_in(20) { 33_000 } else { 200 };
        return noise(&mut random, most);
    }
    let class = CLASSES[random.below(CLASSES.len())];
    let mut frame = generate::frame(class, seed, index);
    for _ in 0..random.below(4) {
        change(&mut random, &mut frame);
    }
    frame
}

fn noise(random: &mut Random, most: usize) -> Vec<u8> {
    let length = random.below(most + 1);
    (0..length).map(|_| random.below(256) as u8).collect()
}

/// One byte set, bytes cut out, put in or taken off the end.
fn change(random: &mut Random, frame: &mut Vec<u8>) {
    if frame.is_empty() {
        return;
    }
    let at = random.below(frame.len());
    match random.below(5) {
        0 => frame[at] = random.below(256) as u8,
        1 => frame[at] = frame[at].wrapping_add(1),
        2 => frame.truncate(at),
        3 => {
            let end = (at + random.between(1, 8)).min(frame.len());
            frame.drain(at..end);
        }
        _ => {
            let more = noise(random, 8);
            frame.splice(at..at, more);
        }
    }
}
