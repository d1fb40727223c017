//! Saves by the editor's crate, each beside `fmt_parsed` of the original.

use std::hint::black_box;

use editor::{convert, decode, plug};
use judge::{
    driver,
    reader::{self, Accepted},
    tree,
};
use rrufthim::{
    Batch, File as Framed, Formatter, Options, ast::SyntaxTree, fmt_parsed,
};

use super::{
    both,
    inputs::{File, Input},
};

/// What is timed, and both times.
type Timed = (&'static str, [f64; 2]);

/// The ways to save: from the crate's own tree; from Roto's, turned into one
/// of the crate's; the same with a formatter that is kept; Roto's by the plug;
/// and an image that is at hand.
pub fn of_files(input: &Input, trees: &[tree::Input]) -> Vec<Timed> {
    let read = |file| accepted(file).source;
    let sources: Vec<&str> = input.files.iter().map(read).collect();
    vec![
        ("fmt_parsed", own_tree(input, trees)),
        ("converted", converted(&sources, trees)),
        ("converted and kept", converted_and_kept(&sources, trees)),
        ("plug", plugged(&sources, trees)),
        ("Formatter", image(input, trees)),
    ]
}

fn accepted(file: &File) -> Accepted<'_> {
    reader::read(&file.source, &file.image).expect("a legal file")
}

/// Both sides on all files.
fn timed(
    trees: &[tree::Input],
    mut save: impl FnMut(usize, &tree::Input),
) -> [f64; 2] {
    both(
        || {
            for (place, tree) in trees.iter().enumerate() {
                save(place, tree);
            }
        },
        || {
            for tree in trees {
                black_box(driver::format(tree));
            }
        },
    )
}

fn own_tree(input: &Input, trees: &[tree::Input]) -> [f64; 2] {
    let accepted: Vec<Accepted> = input.files.iter().map(accepted).collect();
    let files: Vec<editor::File> = accepted.iter().map(decode).collect();
    timed(trees, |place, _| {
        let editor::File {
            source,
            tree,
            extras,
            ..
        } = &files[place];
        let formatted = fmt_parsed(tree, source, extras);
        black_box(formatted.expect("a text").text);
    })
}

fn turned(input: &tree::Input) -> (SyntaxTree, rrufthim::ast::Extras) {
    let tree = convert::tree(&input.ast, &input.spans);
    (tree, convert::extras(&input.extras))
}

fn converted(sources: &[&str], trees: &[tree::Input]) -> [f64; 2] {
    timed(trees, |place, input| {
        let (tree, extras) = turned(input);
        let formatted = fmt_parsed(&tree, sources[place], &extras);
        black_box(formatted.expect("a text").text);
    })
}

fn converted_and_kept(sources: &[&str], trees: &[tree::Input]) -> [f64; 2] {
    let mut formatter = Formatter::new();
    timed(trees, |place, input| {
        let (tree, extras) = turned(input);
        let text = formatter.format_tree(&tree, sources[place], &extras);
        black_box(text.expect("a text").text);
    })
}

/// The text is the original's, whose widths the plug asks for too.
fn plugged(sources: &[&str], trees: &[tree::Input]) -> [f64; 2] {
    let mut formatter = Formatter::new().with_options(Options::AS_ROTO);
    let mut save = |place: usize, input: &tree::Input| {
        let tree::Input {
            ast, spans, extras, ..
        } = input;
        let text = formatter.format_written(sources[place], |out| {
            plug::write(out, ast, spans, extras)
        });
        black_box(text.expect("a text").text).len()
    };
    for (place, tree) in trees.iter().enumerate() {
        assert_eq!(save(place, tree), driver::format(tree).len());
    }
    timed(trees, |place, tree| {
        save(place, tree);
    })
}

/// All files by a batch that is kept, their texts as strings.
pub fn batch(files: &[File]) -> impl FnMut() {
    let files: Vec<_> = files.iter().map(framed).collect();
    let mut batch = Batch::new();
    move || {
        let answers = batch.format_files(files.iter().copied());
        assert!(answers.iter().all(Result::is_ok), "room for all");
        black_box(answers);
    }
}

fn image(input: &Input, trees: &[tree::Input]) -> [f64; 2] {
    let mut formatter = Formatter::new();
    timed(trees, |place, _| {
        let text = formatter.format_file(framed(&input.files[place]));
        black_box(text.expect("a text").text);
    })
}

/// A file as the crate takes it.
fn framed(file: &File) -> Framed<'_> {
    Framed::new(&file.source, &file.image)
}
