//! A night's saves: one call for each file beside one call for all, on the
//! same files. The time is that of a file.

use std::hint::black_box;

use judge::{
    batch::ROW,
    calls::Given,
    choice::Choice,
    driver,
    frame::{Frame, framed},
    generate::SizeCase,
    reader, tree,
};

use super::{
    Line, both,
    inputs::{File, Input},
    stack,
    steps::StackLine,
};

/// The files of an input in a buffer, with what a batch is lent.
struct Saves {
    frames: Vec<u8>,
    table: Vec<u32>,
    output: Vec<u8>,
}

impl Saves {
    /// As much output as there are frames, as the editor's crate lends it.
    fn of(files: &[File]) -> Self {
        let framed = |file: &File| {
            framed(Frame {
                source: &file.source,
                image: &file.image,
            })
        };
        let frames: Vec<u8> = files.iter().flat_map(framed).collect();
        Saves {
            table: vec![0; ROW * files.len()],
            output: vec![0; frames.len()],
            frames,
        }
    }

    fn batch(&mut self) -> u64 {
        let choice = Choice::REFERENCE;
        let Saves {
            frames,
            table,
            output,
        } = self;
        let answer = crate::batch(frames, choice, table, output);
        answer.expect("room for all").bytes
    }

    /// The files one by one into the same output.
    fn singles(&mut self, files: &[File]) -> u64 {
        let mut bytes = 0;
        for File { source, image } in files {
            let given = Given { source, image };
            let rest = &mut self.output[bytes..];
            let answer = crate::format(given, Choice::REFERENCE, rest);
            bytes += answer.expect("room for it").bytes as usize;
        }
        bytes as u64
    }
}

/// Single calls, the batch, and that of the editor's crate, each beside
/// `fmt_parsed` on decoded trees.
pub fn of_files(input: &Input) -> Vec<Line> {
    let files = &input.files;
    let accepted: Vec<_> = files
        .iter()
        .map(|file| reader::read(&file.source, &file.image))
        .map(|read| read.expect("a legal file"))
        .collect();
    let trees: Vec<tree::Input> = accepted
        .iter()
        .zip(files)
        .map(|(accepted, file)| tree::Input::new(accepted, &file.image))
        .collect();
    let original = || {
        for tree in &trees {
            black_box(driver::format(tree));
        }
    };
    let mut saves = Saves::of(files);
    assert_eq!(saves.batch(), saves.singles(files), "the texts' bytes");
    let whole = both(|| saves.singles(files), original);
    let batch = both(|| saves.batch(), original);
    let line = |step, [port_seconds, rust_seconds]: [f64; 2]| Line {
        step,
        input: input.name.clone(),
        size: files.len(),
        unit: "file",
        port_seconds,
        rust_seconds,
    };
    let lines = vec![line("whole", whole), line("batch", batch)];
    #[cfg(feature = "formatter")]
    let lines = {
        let crated = both(super::saves::batch(files), original);
        [lines, vec![line("Batch", crated)]].concat()
    };
    lines
}

/// The stack that a batch of one deep file takes.
pub fn stack_of(case: &SizeCase, rows: usize) -> StackLine {
    let file = File {
        source: case.source.clone(),
        image: case.image.clone(),
    };
    let mut saves = Saves::of(&[file]);
    saves.output.resize(1 << 20, 0);
    StackLine {
        step: "batch",
        input: case.name.replace(',', ""),
        rows,
        bytes: stack::used(|| {
            black_box(saves.batch());
        }),
    }
}
