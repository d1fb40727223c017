//! Whether trees are read back the same, beside the judge's verdict: the
//! original has none.

use std::hint::black_box;

use judge::{
    generate::SizeCase,
    reads_back::{Verdict, reads_back},
};

use super::{
    Line, both,
    inputs::{File, Input},
    stack,
    steps::StackLine,
};

/// The verdict on all files of an input, in ns a byte of sources and images;
/// none where one of them is read back differently, since the walk ends there.
pub fn of_files(input: &Input) -> Option<Line> {
    let same = |file: &File| {
        reads_back(&file.source, &file.image) == Ok(Verdict::Same)
    };
    let ported = |file: &File| {
        let verdict = crate::reads_back(&file.source, &file.image);
        verdict == Ok(Verdict::Same)
    };
    if !input.files.iter().all(same) {
        return None;
    }
    let all = |said: &dyn Fn(&File) -> bool| {
        assert!(input.files.iter().all(said), "read back the same");
    };
    let [port_seconds, rust_seconds] = both(|| all(&ported), || all(&same));
    Some(Line {
        step: "reads back",
        input: input.name.clone(),
        size: input.bytes(),
        unit: "byte",
        port_seconds,
        rust_seconds,
    })
}

/// The stack that the verdict on a deep file takes.
pub fn stack_of(case: &SizeCase, rows: usize) -> StackLine {
    StackLine {
        step: "reads back",
        input: case.name.replace(',', ""),
        rows,
        bytes: stack::used(|| {
            let verdict = crate::reads_back(&case.source, &case.image);
            black_box(verdict.expect("a legal file"));
        }),
    }
}
