//! A document rendered in pieces: how long the longest call takes, beside the
//! whole rendering in one.

use std::{fmt::Write, hint::black_box, time::Instant};

use judge::{
    allotment::ALL_ROWS,
    calls::{
        Answer, Given, LayoutArgs, LayoutState, RenderArgs, RenderState,
    },
    driver,
    mode::OLD,
    reader,
    rows::Row,
    rule::SUPPLIED,
    tree,
    width::REFERENCE,
};

use super::{
    inputs::{File, Input},
    stack,
};
use crate::{UNTOUCHED, port, typed};

/// How often a document is rendered; of each call the least time counts.
const ROUNDS: usize = 25;

/// Which stop the calls name.
#[derive(Clone, Copy, Debug, PartialEq, Eq)]
enum Stops {
    /// Where the declaration of the next row ends.
    Declarations,
    Document,
}

/// A document by calls that may enter so many rows.
pub struct PieceLine {
    pub input: String,
    pub allotment: usize,
    stops: Stops,
    pub calls: usize,
    /// The longest call, all calls, in seconds.
    pub longest: f64,
    pub sum: f64,
    /// The stack of the call that takes most.
    pub stack: usize,
}

/// A call as it is made again: the state's numbers and the arguments.
struct Made {
    state: [u64; typed::RENDER_STATE],
    args: [u64; 4],
}

/// A file that is laid out, with the rows where its declarations end.
struct Laid<'f> {
    given: Given<'f>,
    ends: Vec<usize>,
    store: Vec<u32>,
    marks: Vec<u8>,
    output: Vec<u8>,
}

/// The first file of an input, whole and in pieces of 100 rows, by both sorts
/// of stops.
pub fn of_file(input: &Input) -> Vec<PieceLine> {
    const PIECE: usize = 100;
    let mut laid = Laid::new(&input.files[0]);
    let ways = [
        (ALL_ROWS, Stops::Document),
        (PIECE, Stops::Document),
        (PIECE, Stops::Declarations),
    ];
    let line = |(allotment, stops)| {
        let calls = laid.calls(allotment, stops);
        let least = laid.times(&calls);
        PieceLine {
            input: input.name.clone(),
            allotment,
            stops,
            calls: calls.len(),
            longest: least.iter().copied().fold(0.0, f64::max),
            sum: least.iter().sum(),
            stack: laid.stack(&calls),
        }
    };
    ways.map(line).into()
}

impl<'f> Laid<'f> {
    fn new(file: &'f File) -> Self {
        let (source, image) = (&file.source[..], &file.image[..]);
        let read = reader::read(source, image).expect("a legal file");
        let run = driver::run(&tree::Input::new(&read, image));
        let rows = run.rows.len();
        let given = Given { source, image };
        let mut store = vec![0; rows * Row::CELLS];
        let args = LayoutArgs {
            stop: run.stops.len() - 1,
            close: true,
            mode: OLD,
            rule: SUPPLIED,
            archive: false,
        };
        let fresh = LayoutState::default();
        let answer = crate::layout(given, &mut store, &fresh, args);
        assert!(answer.is_ok(), "{answer:?}");
        let ends = run.stops.iter().map(|stop| stop.next_row);
        Laid {
            given,
            ends: ends.chain([rows]).collect(),
            store,
            marks: vec![0; run.marks.len()],
            output: vec![0; 16 * run.text.len() + (1 << 16)],
        }
    }

    fn rows(&self) -> usize {
        *self.ends.last().expect("an end")
    }

    fn stop(&self, next: usize, stops: Stops) -> usize {
        match stops {
            Stops::Document => self.rows(),
            Stops::Declarations => {
                let end = self.ends.iter().find(|end| next < **end);
                *end.expect("rows are left")
            }
        }
    }

    /// The calls from fresh to the document's end, as the answers have it.
    fn calls(&mut self, allotment: usize, stops: Stops) -> Vec<Made> {
        let mut state = RenderState::default();
        let mut calls = Vec::new();
        while state.next_row < self.rows() {
            let stop = self.stop(state.next_row, stops);
            let args = RenderArgs {
                stop,
                room: 0,
                width: REFERENCE,
                rule: SUPPLIED,
                allotment,
            };
            let args_numbers = [stop, REFERENCE, SUPPLIED, allotment];
            calls.push(Made {
                state: typed::render_numbers(&state),
                args: args_numbers.map(|number| number as u64),
            });
            let Laid {
                given,
                store,
                marks,
                output,
                ..
            } = self;
            let answer =
                crate::render(*given, store, marks, output, &state, args);
            match answer {
                Ok(Answer::Written { state: next, .. }) => state = next,
                other => panic!("{other:?}"),
            }
        }
        calls
    }

    fn make(&mut self, call: &Made) {
        let mut out = [UNTOUCHED; typed::RENDER_OUT];
        port::render(
            self.given.source,
            self.given.image,
            &mut self.store,
            &mut self.marks,
            &mut self.output,
            &call.state,
            &call.args,
            &mut out,
        );
        assert_eq!(black_box(&out)[0], 0, "accepted");
    }

    /// The least time of each call, in seconds.
    fn times(&mut self, calls: &[Made]) -> Vec<f64> {
        let mut least = vec![f64::INFINITY; calls.len()];
        for _ in 0..ROUNDS {
            for (call, least) in calls.iter().zip(&mut least) {
                let start = Instant::now();
                self.make(call);
                *least = least.min(start.elapsed().as_secs_f64());
            }
        }
        least
    }

    /// The stack that these calls take, one after another.
    fn stack(&mut self, calls: &[Made]) -> usize {
        stack::used(|| calls.iter().for_each(|call| self.make(call)))
    }
}

/// The lines as Markdown.
pub fn table(lines: &[PieceLine]) -> String {
    let mut out = format!(
        "Renderings in pieces: of each call the least of {ROUNDS}, in us.\n\n"
    );
    out += "| Input | Rows a call | Stop | Calls | Longest | Mean | All | Stack |\n";
    out += "|---|---:|---|---:|---:|---:|---:|---:|\n";
    for line in lines {
        let rows = match line.allotment {
            ALL_ROWS => "all".into(),
            rows => rows.to_string(),
        };
        let stop = match line.stops {
            Stops::Declarations => "the declaration's end",
            Stops::Document => "the document's end",
        };
        let mean = line.sum / line.calls as f64;
        let [longest, mean, sum] =
            [line.longest, mean, line.sum].map(|seconds| seconds * 1e6);
        writeln!(
            out,
            "| {} | {rows} | {stop} | {} | {longest:.1} | {mean:.1} | {sum:.1} | {} |",
            line.input, line.calls, line.stack,
        )
        .unwrap();
    }
    out
}
