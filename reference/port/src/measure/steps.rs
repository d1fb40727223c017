//! Layout, rendering and the whole run, timed on both sides.

use std::{fmt::Write, hint::black_box};

use judge::{
    allotment::ALL_ROWS,
    calls::{
        Answer, Given, LayoutArgs, LayoutState, RenderArgs, RenderState,
    },
    choice::Choice,
    driver::{self, Held, Run},
    figures::Tallies,
    frame::Frame,
    generate::{self, SizeCase},
    mode::OLD,
    program::{self, ROWS, Widths},
    reader,
    rows::{self, Row},
    rule::{SUPPLIED, UNICODE_15_1, UNICODE_16_0},
    tree,
    width::REFERENCE,
};

#[cfg(feature = "formatter")]
use super::saves;
use super::{
    Line, batches, both,
    documents::{self, Document, Empty},
    formulas,
    inputs::{File, Input},
    moves, stack, verdicts,
};

/// A file of the port: what it is given, and its buffers.
struct Ported<'f> {
    given: Given<'f>,
    declarations: usize,
    rows: usize,
    rule: usize,
    store: Vec<u32>,
    marks: Vec<u8>,
    output: Vec<u8>,
}

impl Ported<'_> {
    fn layout(&mut self) {
        let fresh = LayoutState::default();
        let Ported {
            given,
            declarations,
            rule,
            ..
        } = *self;
        let store = &mut self.store;
        let args = LayoutArgs {
            stop: declarations,
            close: true,
            mode: OLD,
            rule,
            archive: false,
        };
        let answer = crate::layout(given, store, &fresh, args);
        assert!(answer.is_ok(), "{answer:?}");
    }

    /// Renders, and gives the bytes of the text.
    fn render(&mut self) -> usize {
        let answer = crate::render(
            self.given,
            &mut self.store,
            &mut self.marks,
            &mut self.output,
            &RenderState::default(),
            RenderArgs {
                stop: self.rows,
                room: 0,
                width: REFERENCE,
                rule: self.rule,
                allotment: ALL_ROWS,
            },
        );
        match answer {
            Ok(Answer::Written { bytes, .. }) => bytes,
            other => panic!("{other:?}"),
        }
    }

    /// The text of the whole run, which has rows and marks of its own.
    fn format(&mut self) -> &[u8] {
        let choice = Choice {
            rule: self.rule,
            ..Choice::REFERENCE
        };
        let answer = crate::format(self.given, choice, &mut self.output);
        &self.output[..answer.expect("room for all").bytes as usize]
    }

    /// The whole file by the two calls.
    fn calls(&mut self) -> usize {
        self.layout();
        self.render()
    }

    /// Whether the whole run has rows enough.
    fn is_small(&self) -> bool {
        self.rows <= ROWS
    }
}

/// The output that a call is lent: many times its text, as an editor lends it,
/// so that a bound shows that the text has room and no dry run counts it.
/// (Where supplied widths are not the true ones, which the original computes
/// here, the texts are not the same, and the spare bytes hold the longer one.)
fn roomy(text: usize) -> usize {
    16 * text + (1 << 16)
}

/// The rows that a file is lent: five for each 13 bytes of its image, and a
/// few. With these the layout call counts no rows first.
fn rows_lent(file: &File) -> usize {
    file.image.len() * 5 / 13 + 16
}

/// The steps on all files of an input: layout and rendering apart; the two
/// calls with room to spare, and with no more than they need, where both count
/// before they write; saves by the editor's crate; and the whole run, on those
/// files that it has rows for.
pub fn of_files(input: &Input) -> Vec<Line> {
    let files = input.files.iter();
    let accepted: Vec<_> = files
        .map(|file| reader::read(&file.source, &file.image))
        .map(|read| read.expect("a legal file"))
        .collect();
    let trees: Vec<tree::Input> = accepted
        .iter()
        .zip(&input.files)
        .map(|(accepted, file)| tree::Input::new(accepted, &file.image))
        .collect();
    let Lent {
        mut ported,
        mut tight,
        lengths,
    } = Lent::to(input, &trees);
    let rows = ported.iter().map(|one| one.rows).sum();
    let bytes = lengths.iter().sum();
    let line =
        |step, size, unit, [port_seconds, rust_seconds]: [f64; 2]| Line {
            step,
            input: input.name.clone(),
            size,
            unit,
            port_seconds,
            rust_seconds,
        };
    let mut lines = vec![
        line("layout", rows, "row", layout(&mut ported, &trees)),
        line("rendering", rows, "row", rendered(&mut ported, &trees)),
        line("calls", bytes, "byte", calls(&mut ported, &trees)),
        line("tight calls", bytes, "byte", calls(&mut tight, &trees)),
    ];
    #[cfg(feature = "formatter")]
    for (step, seconds) in saves::of_files(input, &trees) {
        lines.push(line(step, bytes, "byte", seconds));
    }
    lines.extend(small_files(input, &mut ported, &trees, &lengths));
    lines
}

/// Layout and rendering by an edition of Unicode, beside the original, which
/// computes the widths of names and takes the bytes of literals; and by
/// supplied widths, if these aren't timed elsewhere.
pub fn by_rules(input: &Input, supplied: bool) -> Vec<Line> {
    let files = input.files.iter();
    let accepted: Vec<_> = files
        .map(|file| reader::read(&file.source, &file.image))
        .map(|read| read.expect("a legal file"))
        .collect();
    let trees: Vec<tree::Input> = accepted
        .iter()
        .zip(&input.files)
        .map(|(accepted, file)| tree::Input::new(accepted, &file.image))
        .collect();
    let Lent { mut ported, .. } = Lent::to(input, &trees);
    let size = ported.iter().map(|one| one.rows).sum();
    let mut lines = Vec::new();
    for (rule, steps) in [
        (SUPPLIED, ["layout", "rendering"]),
        (UNICODE_15_1, ["layout by 15.1", "rendering by 15.1"]),
        (UNICODE_16_0, ["layout by 16.0", "rendering by 16.0"]),
    ] {
        if rule == SUPPLIED && !supplied {
            continue;
        }
        ported.iter_mut().for_each(|one| one.rule = rule);
        let times =
            [layout(&mut ported, &trees), rendered(&mut ported, &trees)];
        for (step, [port_seconds, rust_seconds]) in
            steps.into_iter().zip(times)
        {
            lines.push(Line {
                step,
                input: input.name.clone(),
                size,
                unit: "row",
                port_seconds,
                rust_seconds,
            });
        }
    }
    lines
}

/// The files of an input with their buffers: with room to spare, and with no
/// more than the calls need; and how long the original's texts are.
struct Lent<'f> {
    ported: Vec<Ported<'f>>,
    tight: Vec<Ported<'f>>,
    lengths: Vec<usize>,
}

impl<'f> Lent<'f> {
    fn to(input: &'f Input, trees: &[tree::Input]) -> Self {
        let [mut ported, mut tight] = [const { Vec::new() }; 2];
        let mut lengths = Vec::new();
        for (tree, file) in trees.iter().zip(&input.files) {
            let run = driver::run(tree);
            lengths.push(run.text.len());
            let mut one =
                of_file(file, &run, rows_lent(file), roomy(run.text.len()));
            let text = one.calls();
            ported.push(one);
            tight.push(of_file(file, &run, run.rows.len(), text));
        }
        Lent {
            ported,
            tight,
            lengths,
        }
    }
}

/// The whole run on the files of an input that it has rows for.
fn small_files(
    input: &Input,
    ported: &mut [Ported],
    trees: &[tree::Input],
    lengths: &[usize],
) -> Option<Line> {
    let all = ported.len();
    let (mut small, mut bytes) = (Vec::new(), 0);
    for ((one, tree), length) in ported.iter_mut().zip(trees).zip(lengths) {
        if one.is_small() {
            small.push((one, tree));
            bytes += length;
        }
    }
    let name = match small.len() {
        0 => return None,
        count if count == all => input.name.clone(),
        count => format!("{}: {count} of them", input.name),
    };
    let [port_seconds, rust_seconds] = whole(&mut small);
    Some(Line {
        step: "whole",
        input: name,
        size: bytes,
        unit: "byte",
        port_seconds,
        rust_seconds,
    })
}

fn of_file<'f>(
    file: &'f File,
    run: &Run,
    rows: usize,
    output: usize,
) -> Ported<'f> {
    Ported {
        given: Given {
            source: &file.source,
            image: &file.image,
        },
        declarations: run.stops.len() - 1,
        rows: run.rows.len(),
        rule: SUPPLIED,
        store: vec![0; rows * Row::CELLS],
        marks: vec![0; run.marks.len()],
        output: vec![0; output],
    }
}

fn layout(ported: &mut [Ported], trees: &[tree::Input]) -> [f64; 2] {
    both(
        || ported.iter_mut().for_each(Ported::layout),
        || {
            for tree in trees {
                black_box(Held::lay_out(tree));
            }
        },
    )
}

/// Rendering of what layout left.
fn rendered(ported: &mut [Ported], trees: &[tree::Input]) -> [f64; 2] {
    let held: Vec<Held> = trees.iter().map(Held::lay_out).collect();
    both(
        || ported.iter_mut().map(Ported::render).sum::<usize>(),
        || {
            for one in &held {
                black_box(one.render());
            }
        },
    )
}

/// The whole run from the image, and `fmt_parsed` from the decoded tree.
fn whole(files: &mut [(&mut Ported, &tree::Input)]) -> [f64; 2] {
    let trees: Vec<&tree::Input> = files.iter().map(|(_, t)| *t).collect();
    both(
        || {
            for (one, _) in files.iter_mut() {
                black_box(one.format());
            }
        },
        || {
            for tree in &trees {
                black_box(driver::format(tree));
            }
        },
    )
}

/// The two calls from the image, and `fmt_parsed` from the decoded tree.
fn calls(ported: &mut [Ported], trees: &[tree::Input]) -> [f64; 2] {
    both(
        || ported.iter_mut().map(Ported::calls).sum::<usize>(),
        || {
            for tree in trees {
                black_box(driver::format(tree));
            }
        },
    )
}

/// Rendering of a document, whose texts must come out the same.
pub fn rendering(document: Document) -> Line {
    let texts = documents::texts();
    let held = Held::of_rows(&texts, &document.rows);
    let empty = Empty::new();
    let due = held.render();
    let mut ported = of_document(&empty, &document, due.len());
    ported.render();
    let text = &ported.output[..due.len()];
    assert!(text == due.as_bytes(), "the texts differ");
    let [port_seconds, rust_seconds] =
        both(|| ported.render(), || held.render());
    Line {
        step: "rendering",
        input: document.name,
        size: document.rows.len(),
        unit: "row",
        port_seconds,
        rust_seconds,
    }
}

fn of_document<'e>(
    empty: &'e Empty,
    document: &Document,
    text: usize,
) -> Ported<'e> {
    let marks = rows::marks_needed(&document.rows) as usize;
    let cells = document.rows.iter().flat_map(|row| row.cells());
    Ported {
        given: empty.given(),
        declarations: 0,
        rows: document.rows.len(),
        rule: SUPPLIED,
        store: cells.collect(),
        marks: vec![0; marks],
        output: vec![0; roomy(text)],
    }
}

/// The stack that a call took.
pub struct StackLine {
    pub step: &'static str,
    pub input: String,
    pub rows: usize,
    pub bytes: usize,
}

/// What any call may take.
pub const MOST_STACK: usize = 256 << 10;

/// The rules by which the stack is measured, with what a rendering and a whole
/// run by each are called. The judge as it is built for timing has one.
const RULES: &[(usize, [&str; 2])] = if cfg!(feature = "stand-in") {
    &[(SUPPLIED, ["rendering", "whole"])]
} else {
    &[
        (SUPPLIED, ["rendering", "whole"]),
        (UNICODE_16_0, ["rendering by 16.0", "whole by 16.0"]),
    ]
};

/// The stack that rendering takes on large documents and at every depth, and
/// the whole run, a batch, a count and the moves on trees as deep as trees get.
pub fn stack() -> Vec<StackLine> {
    let mut lines = Vec::new();
    for (rule, [rendering, _]) in RULES {
        let largest = documents::growing().into_iter().rev().take(3);
        lines.extend(
            largest
                .map(|document| stack_of_rendering(document, *rule))
                .chain(stack_by_depth(*rule))
                .map(|line| StackLine {
                    step: rendering,
                    ..line
                }),
        );
    }
    let sizes = generate::size_cases().iter();
    let deep =
        sizes.filter(|case| case.refusal == 0 && case.name.contains("deep"));
    lines.extend(deep.flat_map(stack_of_runs));
    lines.push(formulas::stack_of());
    lines
}

/// The stack that rendering takes on rows of each depth that rows may have:
/// one line for depths next to each other that take the same.
fn stack_by_depth(rule: usize) -> Vec<StackLine> {
    let mut lines: Vec<StackLine> = Vec::new();
    let mut first = 1;
    for depth in 1..=documents::DEPTH {
        let line = documents::of_depth(depth)
            .map(|document| stack_of_rendering(document, rule))
            .into_iter()
            .max_by_key(|line| line.bytes)
            .expect("two documents");
        match lines.last_mut() {
            Some(last) if last.bytes == line.bytes => {
                last.input = format!("{first} to {depth} deep");
                last.rows = line.rows;
            }
            _ => {
                first = depth;
                lines.push(line);
            }
        }
    }
    lines
}

fn stack_of_rendering(document: Document, rule: usize) -> StackLine {
    let texts = documents::texts();
    let empty = Empty::new();
    let bytes = Held::of_rows(&texts, &document.rows).render().len();
    let mut ported = of_document(&empty, &document, bytes);
    ported.rule = rule;
    StackLine {
        step: "rendering",
        bytes: stack::used(|| {
            black_box(ported.render());
        }),
        input: document.name,
        rows: document.rows.len(),
    }
}

fn stack_of_runs(case: &SizeCase) -> Vec<StackLine> {
    let file = File {
        source: case.source.clone(),
        image: case.image.clone(),
    };
    let frame = Frame {
        source: &file.source,
        image: &file.image,
    };
    let run = program::format(frame, Widths::Supplied).expect("accepted");
    let rows = run.rows.len();
    let mut ported = of_file(&file, &run, rows, roomy(run.text.len()));
    let line = |step, bytes| StackLine {
        step,
        input: case.name.replace(',', ""),
        rows,
        bytes,
    };
    let wholes = RULES.iter().map(|(rule, [_, whole])| {
        ported.rule = *rule;
        let used = stack::used(|| {
            black_box(ported.format());
        });
        line(whole, used)
    });
    let mut lines: Vec<_> = wholes.collect();
    let given = Given {
        source: &file.source,
        image: &file.image,
    };
    let count = stack::used(|| {
        let counted = crate::count(given, &Tallies::default());
        black_box(counted.expect("room for it"));
    });
    lines.extend([batches::stack_of(case, rows), line("count", count)]);
    lines.extend(moves::stack_of(case, rows));
    lines.push(verdicts::stack_of(case, rows));
    lines
}

/// The lines as Markdown.
pub fn stack_table(lines: &[StackLine]) -> String {
    let mut out = String::from("| Stack of | Input | Rows | Bytes |\n");
    out += "|---|---|---:|---:|\n";
    for StackLine {
        step,
        input,
        rows,
        bytes,
    } in lines
    {
        writeln!(out, "| {step} | {input} | {rows} | {bytes} |").unwrap();
    }
    out
}

/// The lines as comma-separated values.
pub fn stack_csv(lines: &[StackLine]) -> String {
    let mut out = String::from("step,input,rows,stack_bytes\n");
    for StackLine {
        step,
        input,
        rows,
        bytes,
    } in lines
    {
        writeln!(out, "{step},{input},{rows},{bytes}").unwrap();
    }
    out
}
