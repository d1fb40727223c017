//! The files of the fixed list, each in its frame.

use super::super::sizes;
use crate::{
    batch, examples,
    frame::{self, Frame, framed},
    image::{self, Tree, chosen, node, text},
    moves,
    reader::{self, Version},
};

pub type File = Vec<u8>;

/// A file of no bytes, refused by 3.
pub const NO_BYTES: [u8; 8] = [0; 8];

/// A file of document 01.
pub fn known(name: &str) -> File {
    of_frame(&examples::frame(name).expect("known"))
}

/// A file with this image.
pub fn of_image(source: &[u8], image: &[u8]) -> File {
    framed(Frame { source, image })
}

/// A file of the list with its image in version 2, whatever its widths.
pub fn in_two(file: &File) -> File {
    let files = batch::split(file).expect("a file");
    let Frame { source, image } = files[0];
    let read = reader::read(source, image).expect("accepted");
    of_image(source, &moves::rewritten(&read, Version::Two))
}

/// A size of document 01.
pub fn of_size(name: &str) -> File {
    let mut sizes = sizes::cases().iter();
    let case = sizes.find(|case| case.name == name).expect("a size");
    framed(Frame {
        source: &case.source,
        image: &case.image,
    })
}

/// A file that is refused by this number.
pub fn refused(number: u8) -> File {
    let import = |span| node(16, span, [None, None]);
    match number {
        1 => of_size("source of 65537 bytes"),
        2 => {
            let image = image::write(&[], &node(1, 0..0, [None]));
            of_frame(&frame::join(b"x\xFF", &image))
        }
        3 => NO_BYTES.into(),
        4 => of_one("", node(99, 0..0, [])),
        5 => of_size("records 65 deep, by kind 70"),
        6 => of_one("x", import(0..2)),
        7 => {
            let (comments, declarations) = (vec![1..1], vec![import(0..0)]);
            of_frame(&examples::of_source("x", comments, declarations))
        }
        // Empty lists have many rows for few bytes.
        _ => list(&of_elements(0, None), 230),
    }
}

/// A file with a later comment first in its list.
pub fn backwards() -> File {
    let frame = examples::of_source("#a\n#b\n", vec![3..5, 0..2], vec![]);
    of_frame(&frame)
}

/// `const c: () = [xxxxxxxxx, ..];`, of so many names.
pub fn names(count: usize) -> File {
    let name = chosen(87, 0..9, 0, []);
    list(&node(51, 0..0, [Some(name)]), count)
}

/// `const c: () = ["東京都港区", ..];`, of so many: 17 bytes and 12 columns
/// each, so that four fit a line by Unicode alone.
pub fn japanese(count: usize) -> File {
    const TEXT: &str = "\"東京都港区\"";
    let name = chosen(87, 0..TEXT.len(), 0, []);
    let element = node(51, 0..0, [Some(name)]);
    of_one(TEXT, list_of(&element, count))
}

/// A constant whose value is a list of so many of these.
fn list(element: &Tree, count: usize) -> File {
    of_one("xxxxxxxxx", list_of(element, count))
}

fn list_of(element: &Tree, count: usize) -> Tree {
    let value = of_elements(count, Some(element.clone()));
    let (name, unit) = (text(0..0, 1, "c"), node(43, 0..0, []));
    node(11, 0..0, [name, unit, value].map(Some))
}

fn of_elements(count: usize, element: Option<Tree>) -> Tree {
    let elements = vec![element; count];
    node(59, 0..0, [Some(node(3, 0..0, elements))])
}

fn of_one(source: &str, declaration: Tree) -> File {
    of_frame(&examples::of_source(source, vec![], vec![declaration]))
}

fn of_frame(bytes: &[u8]) -> File {
    framed(frame::split_any_size(bytes).expect("a frame"))
}
