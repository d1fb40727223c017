//! Images moved between the versions, beside the judge's moves: the original
//! has none.

use std::hint::black_box;

use judge::{
    generate::SizeCase,
    moves::{self, Way},
    reader::{self, Version},
};

use super::{
    Line, both,
    inputs::{File, Input},
    stack,
    steps::StackLine,
};

/// The ways, with what they are called.
const WAYS: [(Way, &str); 2] =
    [(Way::Forward, "forward"), (Way::Back, "back")];

/// The image of a file in a version, with the widths of Unicode 16.0.
fn image(file: &File, version: Version) -> Vec<u8> {
    let read = reader::read(&file.source, &file.image);
    moves::rewritten(&read.expect("a legal file"), version)
}

/// What a way starts from.
fn from(way: Way) -> Version {
    match way {
        Way::Forward => Version::One,
        Way::Back => Version::Two,
    }
}

/// Room for either version.
fn room(image: &[u8]) -> Vec<u8> {
    vec![0; 2 * image.len()]
}

/// Both moves of all files of an input, in ns a byte of sources and images.
pub fn of_files(input: &Input) -> Vec<Line> {
    WAYS.into_iter().map(|way| of_way(input, way)).collect()
}

fn of_way(input: &Input, (way, step): (Way, &'static str)) -> Line {
    let files = input.files.iter();
    let images: Vec<_> = files
        .map(|file| (&file.source[..], image(file, from(way))))
        .collect();
    let mut outputs: Vec<_> =
        images.iter().map(|(_, image)| room(image)).collect();
    let port = || {
        let lent = images.iter().zip(&mut outputs);
        let bytes = lent.map(|((source, image), output)| {
            crate::moved(way, source, image, output).expect("moved")
        });
        bytes.sum::<usize>()
    };
    let judged = || {
        let bytes = images.iter().map(|(source, image)| {
            let moved = moves::moved(way, source, image, usize::MAX);
            moved.expect("moved").len()
        });
        bytes.sum::<usize>()
    };
    let [port_seconds, rust_seconds] = both(port, judged);
    Line {
        step,
        input: input.name.clone(),
        size: images
            .iter()
            .map(|(source, image)| source.len() + image.len())
            .sum(),
        unit: "byte",
        port_seconds,
        rust_seconds,
    }
}

/// The stack that both moves of a deep file take.
pub fn stack_of(case: &SizeCase, rows: usize) -> [StackLine; 2] {
    let file = File {
        source: case.source.clone(),
        image: case.image.clone(),
    };
    WAYS.map(|(way, step)| {
        let image = image(&file, from(way));
        let mut output = room(&image);
        StackLine {
            step,
            input: case.name.replace(',', ""),
            rows,
            bytes: stack::used(|| {
                let moved =
                    crate::moved(way, &file.source, &image, &mut output);
                black_box(moved.expect("moved"));
            }),
        }
    })
}
