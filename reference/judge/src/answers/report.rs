//! What the port's program `report` is run on, and what it must write.

use crate::{
    examples,
    figures::report::output as table,
    frame::{Frame, framed, split_any_size},
    generate::{self, Class},
    image::node,
    script,
};

const TARIFF: &str = include_str!("../../../../samples/tariff.roto");

/// A name and a list that are too long for their lines.
const WIDE: &str = "\
const SURCHARGE_FOR_LISTED_BUILDINGS_WITHOUT_SPRINKLERS_OR_NIGHT_WATCH: u32 = 25;
fn rates() { [flood.reduced, flood.standard, fire.reduced, fire.standard, theft.reduced, theft.standard] }
record Rates { reduced: u32, standard: u32 }
";

/// A source that 1 refuses, so long that a reader which keeps no more than it
/// must, and takes 65,536 bytes at once, passes over its rest in two turns.
const TOO_LONG: usize = 140_000;

/// Small files, some of them past the 4,096th that is counted.
const SMALL: usize = 4_098;
const SMALL_ONES: [&str; 4] =
    ["nothing", "shebang", "comment-alone", "import-nothing"];

/// The sample: thirteen files, and the first bytes of one more.
pub fn sample() -> Vec<u8> {
    let files = files();
    let whole = files.iter().flat_map(|frame| framed(parts(frame)));
    whole.chain(cut(&files[0])).collect()
}

/// Its table.
pub fn sample_table() -> String {
    table(&sample())
}

/// The sample's files, a source that is too long, small files until no more
/// are counted, one that 3 refuses behind them, and a file that is cut.
pub fn input() -> Vec<u8> {
    let files = files();
    let long = vec![b' '; TOO_LONG];
    let nothing = known("nothing");
    let image = parts(&nothing).image;
    let long = framed(Frame {
        source: &long,
        image,
    });
    let small = SMALL_ONES.map(|name| framed(parts(&known(name))));
    let whole = files.iter().flat_map(|frame| framed(parts(frame)));
    let small = (0..SMALL).flat_map(|i| small[i % small.len()].clone());
    let refused = framed(parts(&known("version-3")));
    let last = refused.into_iter().chain(cut(&files[0]));
    whole.chain(long).chain(small).chain(last).collect()
}

/// Its table.
pub fn output() -> String {
    table(&input())
}

/// A file without its last byte.
fn cut(frame: &[u8]) -> Vec<u8> {
    let mut bytes = framed(parts(frame));
    bytes.pop();
    bytes
}

/// As frames of the program `rotofmt`, whose limit some may pass.
fn files() -> [Vec<u8>; 13] {
    let empty = examples::of_source("", vec![], vec![]);
    let import = |span| node(16, span, [None, None]);
    let of_one = |source, comments, tree| {
        examples::of_source(source, comments, vec![tree])
    };
    [
        script::frame(TARIFF).expect("a script"),
        empty.clone(),
        known("shebang"),
        // Refused by 2, 3 and 4.
        [&[0, 0, 0, 2, b'x', 0xFF], &empty[4..]].concat(),
        known("version-3"),
        of_one("", vec![], node(99, 0..0, [])),
        script::frame(WIDE).expect("a script"),
        // Refused by 6, 7, for a later comment first, and 8.
        of_one("x", vec![], import(0..2)),
        of_one("xy", vec![1..2, 0..1], import(0..0)),
        too_many_rows(),
        known("comment-alone"),
        // Refused by 20.
        known("version-2"),
        generate::frame(Class::Realistic, 4, 0),
    ]
}

fn known(name: &str) -> Vec<u8> {
    examples::frame(name).expect("known")
}

/// The size of document 01 that 8 refuses.
fn too_many_rows() -> Vec<u8> {
    let mut cases = generate::size_cases().iter();
    let case = cases.find(|case| case.refusal == 8).expect("there");
    crate::frame::join(&case.source, &case.image)
}

fn parts(frame: &[u8]) -> Frame<'_> {
    split_any_size(frame).expect("a frame")
}
