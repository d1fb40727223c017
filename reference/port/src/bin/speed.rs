//! Times the port beside the original on the same inputs, in one run:
//! `speed FILE STACK` prints tables and writes them to these files as CSV.

use std::{env, fs, process::ExitCode};

use judge::reader;
use port::measure::{self, Line, both, inputs};
#[cfg(feature = "calls")]
use port::measure::{batches, documents, formulas, moves, pieces, steps, verdicts};

fn main() -> ExitCode {
    let paths: Vec<String> = env::args().skip(1).collect();
    if let Some(notice) = port::NOTICE {
        println!("{notice}\n");
    }
    let mut lines = Vec::new();
    let checked = inputs::growing().into_iter().chain(inputs::all());
    for input in checked.chain([inputs::operators()]) {
        lines.push(check(&input));
        #[cfg(feature = "calls")]
        lines.extend(verdicts::of_files(&input));
    }
    #[cfg(feature = "calls")]
    {
        lines.extend(inputs::all().iter().flat_map(steps::of_files));
        lines.extend(batches::of_files(&inputs::saves()));
        let moved = inputs::all().into_iter().chain([inputs::japanese()]);
        lines.extend(moved.flat_map(|input| moves::of_files(&input)));
        let documents = documents::growing();
        lines.extend(documents.into_iter().map(steps::rendering));
        lines.push(formulas::of_the_largest());
        lines.extend(by_rules());
    }
    print!("{}", measure::table(&lines));
    write(paths.first(), &measure::csv(&lines));
    #[cfg(feature = "calls")]
    {
        let inputs = inputs::all();
        let tariff = inputs.iter().filter(|i| i.name.contains("tariff"));
        let lines: Vec<_> = tariff.flat_map(pieces::of_file).collect();
        print!("\n{}", pieces::table(&lines));
    }
    stack(paths.get(1))
}

/// All inputs by editions of Unicode, and one of wide characters.
#[cfg(all(feature = "calls", not(feature = "stand-in")))]
fn by_rules() -> Vec<Line> {
    let all = inputs::all();
    let mut lines: Vec<_> = all
        .iter()
        .flat_map(|input| steps::by_rules(input, false))
        .collect();
    lines.extend(steps::by_rules(&inputs::japanese(), true));
    lines
}

/// The judge as it is built for timing has no rules.
#[cfg(all(feature = "calls", feature = "stand-in"))]
fn by_rules() -> Vec<Line> {
    Vec::new()
}

fn write(path: Option<&String>, text: &str) {
    if let Some(path) = path {
        fs::write(path, text).expect("the file is written");
    }
}

/// Fails if a call takes too much stack.
#[cfg(feature = "calls")]
fn stack(path: Option<&String>) -> ExitCode {
    let lines = steps::stack();
    print!("\n{}", steps::stack_table(&lines));
    write(path, &steps::stack_csv(&lines));
    if lines.iter().all(|line| line.bytes < steps::MOST_STACK) {
        ExitCode::SUCCESS
    } else {
        println!("\nmore than {} bytes of stack", steps::MOST_STACK);
        ExitCode::FAILURE
    }
}

#[cfg(not(feature = "calls"))]
fn stack(_: Option<&String>) -> ExitCode {
    ExitCode::SUCCESS
}

/// The reader beside the judge's; the original has none.
fn check(input: &inputs::Input) -> Line {
    let files = &input.files;
    let accept = |accepts: &dyn Fn(&inputs::File) -> bool| {
        assert!(files.iter().all(accepts), "the files are legal")
    };
    let [port_seconds, rust_seconds] = both(
        || accept(&|file| port::check(&file.source, &file.image).is_ok()),
        || accept(&|file| reader::read(&file.source, &file.image).is_ok()),
    );
    Line {
        step: "check",
        input: input.name.clone(),
        size: input.bytes(),
        unit: "byte",
        port_seconds,
        rust_seconds,
    }
}
