//! Holds the port against the judge on generated inputs.

use std::{env, process::ExitCode, time::Instant};

use port::compare::{Item, Plan, Tally, one};

const USAGE: &str = "\
usage: compare SEED FRAMES [LISTS [FILES [STEPS [BATCHES [REPORTS [MOVES [TREES]]]]]]]
           FRAMES frames of each class, with widths, with comments at the foot, with wide characters and with comments in any order,
           and as many documents rendered up to every row, LISTS lists of calls of each sort, FILES files counted,
           STEPS images to steps and back, and as many lists of steps, BATCHES batches,
           REPORTS inputs of the program report, MOVES images forward to version 2 and back, and as many of version 2,
           TREES trees of operators to be read back, as many of all classes, and with them all small formulas
       compare KIND SEED INDEX
           one of them again; KIND as a difference names it
ONLY=KIND,KIND compare SEED FRAMES ..
           those of these kinds alone
";

fn main() -> ExitCode {
    let arguments: Vec<String> = env::args().skip(1).collect();
    let words: Vec<&str> = arguments.iter().map(String::as_str).collect();
    let start = Instant::now();
    let Some(tally) = compare(&words) else {
        eprint!("{USAGE}");
        return ExitCode::FAILURE;
    };
    print!("{}", tally.report());
    if let Some(notice) = port::NOTICE {
        println!("{notice}");
    }
    println!("{:.1} seconds", start.elapsed().as_secs_f64());
    println!("{} texts tried word by word", tally.texts());
    let rows = tally.margins_tried();
    println!("{rows} times a row was tried by request 13's sentence");
    println!("{} differences", tally.differences);
    if tally.differences == 0 {
        ExitCode::SUCCESS
    } else {
        ExitCode::FAILURE
    }
}

fn compare(words: &[&str]) -> Option<Tally> {
    let number = |word: &str| word.parse::<u64>().ok();
    let numbers: Option<Vec<u64>> =
        words.iter().map(|word| number(word)).collect();
    if let Some([seed, frames, more @ ..]) = numbers.as_deref() {
        let more = |place| more.get(place).copied().unwrap_or(0);
        let plan = Plan {
            seed: *seed,
            frames: *frames,
            lists: more(0),
            files: more(1),
            steps: more(2),
            batches: more(3),
            reports: more(4),
            moves: more(5),
            trees: more(6),
        };
        println!(
            "{} frames of each class, with widths, with comments at the \
             foot, with wide characters and with comments in any order, \
             {} documents up to every row, \
             {} lists of each sort, {} files counted, {} images to \
             steps and back, {} lists of steps, {} batches, {} reports, \
             {} images forward and back, {} trees read back",
            plan.frames,
            plan.frames,
            plan.lists,
            plan.files,
            plan.steps,
            plan.steps,
            plan.batches,
            plan.reports,
            plan.moves,
            plan.trees
        );
        let only = env::var("ONLY").unwrap_or_default();
        let kinds: Vec<&str> =
            only.split(',').filter(|kind| !kind.is_empty()).collect();
        if !kinds.is_empty() {
            println!("of these {} alone", kinds.join(", "));
        }
        return Some(plan.run_kinds(&kinds));
    }
    let [kind, seed, index] = *words else {
        return None;
    };
    let mut tally = Tally::default();
    tally.begin(0, words.join(" "));
    one(
        &mut tally,
        Item::from_words(kind, number(index)?)?,
        number(seed)?,
    );
    Some(tally)
}
