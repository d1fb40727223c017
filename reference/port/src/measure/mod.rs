//! Time and stack of the port beside the original's, on the same inputs.

#[cfg(feature = "calls")]
pub mod batches;
#[cfg(feature = "calls")]
pub mod documents;
#[cfg(feature = "calls")]
pub mod formulas;
pub mod inputs;
#[cfg(feature = "calls")]
pub mod moves;
#[cfg(feature = "calls")]
pub mod pieces;
#[cfg(feature = "formatter")]
mod saves;
#[cfg(feature = "calls")]
mod stack;
#[cfg(feature = "calls")]
pub mod steps;
#[cfg(feature = "calls")]
pub mod verdicts;

use std::{fmt::Write, hint::black_box, time::Instant};

/// How long each side is run in a round, in seconds, and the rounds.
const LEAST: f64 = 0.05;
const ROUNDS: usize = 5;

/// One comparison: the best time of both sides.
#[derive(Clone, Debug)]
pub struct Line {
    /// What is done, and on what.
    pub step: &'static str,
    pub input: String,
    /// How much of it there is, in which unit.
    pub size: usize,
    pub unit: &'static str,
    pub port_seconds: f64,
    pub rust_seconds: f64,
}

impl Line {
    fn port(&self) -> f64 {
        self.port_seconds * 1e9 / self.size as f64
    }

    fn rust(&self) -> f64 {
        self.rust_seconds * 1e9 / self.size as f64
    }

    fn ratio(&self) -> f64 {
        self.port_seconds / self.rust_seconds
    }
}

/// Runs both sides in turn, and takes the best of each. What they return is
/// kept from being optimised away.
pub fn both<A, B>(
    mut port: impl FnMut() -> A,
    mut rust: impl FnMut() -> B,
) -> [f64; 2] {
    let mut best = [f64::INFINITY; 2];
    for _ in 0..ROUNDS {
        best[0] = best[0].min(round(&mut port));
        best[1] = best[1].min(round(&mut rust));
    }
    best
}

/// The time of one call in a round of them.
fn round<T>(call: &mut impl FnMut() -> T) -> f64 {
    let start = Instant::now();
    let mut calls = 0;
    loop {
        black_box(call());
        calls += 1;
        let seconds = start.elapsed().as_secs_f64();
        if seconds >= LEAST {
            return seconds / f64::from(calls);
        }
    }
}

/// The lines as Markdown.
pub fn table(lines: &[Line]) -> String {
    let mut out = format!("Best of {ROUNDS} rounds, in ns a unit.\n\n");
    out += "| Step | Input | Size | Unit | Port | Rust | Port / Rust |\n";
    out += "|---|---|---:|---|---:|---:|---:|\n";
    for line in lines {
        writeln!(
            out,
            "| {} | {} | {} | {} | {:.2} | {:.2} | {:.2} |",
            line.step,
            line.input,
            line.size,
            line.unit,
            line.port(),
            line.rust(),
            line.ratio(),
        )
        .unwrap();
    }
    out
}

/// The lines as comma-separated values, times in seconds; an input's name may
/// have commas.
pub fn csv(lines: &[Line]) -> String {
    let mut out =
        "step,input,size,unit,port_seconds,rust_seconds,ratio\n".to_string();
    for line in lines {
        writeln!(
            out,
            "{},\"{}\",{},{},{:e},{:e},{:.4}",
            line.step,
            line.input,
            line.size,
            line.unit,
            line.port_seconds,
            line.rust_seconds,
            line.ratio(),
        )
        .unwrap();
    }
    out
}
