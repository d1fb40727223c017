//! Each size of document 01 at its value, and one more.

use std::{ops::Range, sync::LazyLock};

use super::CallCase;
use crate::{
    allotment::ALL_ROWS,
    calls::{Call, LayoutArgs, RenderArgs, World},
    frame::{self, Frame},
    image::{self, Tree, chosen, node, text},
    mode,
    program::{self, Widths},
    reader,
    rows::Row,
    rule, width,
};

/// Source and image apart, since some are too large for the program's frame.
#[derive(Clone, Debug)]
pub struct Case {
    pub name: String,
    pub source: Vec<u8>,
    pub image: Vec<u8>,
    /// The program's refusal if it had no limit on frames, or 0.
    pub refusal: u8,
}

/// All cases: at each size, and past it.
pub fn cases() -> &'static [Case] {
    static CASES: LazyLock<Vec<Case>> = LazyLock::new(make_cases);
    &CASES
}

/// The cases as calls, for a library without the program's limit on frames:
/// all is laid out, then rendered.
pub fn call_cases() -> impl Iterator<Item = CallCase> {
    cases().iter().map(Case::as_calls)
}

impl Case {
    /// Layout of all, then rendering of all.
    pub fn as_calls(&self) -> CallCase {
        let frame = Frame {
            source: &self.source,
            image: &self.image,
        };
        let run = program::format(frame, Widths::Supplied);
        // A refused image is refused at any stop.
        let [declarations, rows] =
            run.map_or([0, 0], |run| [run.stops.len() - 1, run.rows.len()]);
        let layout = Call::Layout(LayoutArgs {
            stop: declarations,
            close: true,
            mode: mode::OLD,
            rule: rule::SUPPLIED,
            archive: false,
        });
        let rendering = Call::Render(RenderArgs {
            stop: rows,
            room: program::OUTPUT,
            width: width::REFERENCE,
            rule: rule::SUPPLIED,
            allotment: ALL_ROWS,
        });
        CallCase {
            source: self.source.clone(),
            image: self.image.clone(),
            world: World {
                store: vec![0; program::ROWS * Row::CELLS],
                marks: vec![0; program::MARKS as usize],
                ..World::default()
            },
            calls: vec![layout, rendering],
        }
    }
}

/// Kinds whose records lie in each other.
pub(super) const DEEP: [u8; 10] = [70, 64, 65, 63, 55, 54, 59, 52, 40, 16];

fn make_cases() -> Vec<Case> {
    let mut cases = Vec::new();
    for more in [0, 1] {
        let past = |number| if more == 1 { number } else { 0 };
        cases.push(source(reader::MOST_SOURCE + more, past(1)));
        cases.push(comments(reader::MOST_COMMENTS + more, past(7)));
        for shape in DEEP {
            cases.push(depth(shape, reader::MOST_DEPTH + more, past(5)));
        }
        cases.push(frame_of(frame::MOST_BYTES + more, 0));
        cases.push(rows(program::ROWS + more, past(8)));
        cases.push(output(program::OUTPUT + more, past(10)));
        // The reader takes the first, whose text the program has no room for.
        let refusal = if more == 1 { 3 } else { 10 };
        cases.push(body(reader::MOST_BODY + more, refusal));
    }
    cases.push(last_too_early(reader::MOST_COMMENTS));
    cases
}

fn case(name: String, source: &str, tree: &Tree, refusal: u8) -> Case {
    Case {
        name,
        source: source.into(),
        image: image::write(&[], tree),
        refusal,
    }
}

pub(super) fn tree(declarations: Vec<Tree>) -> Tree {
    let shebang = std::iter::once(None);
    node(1, 0..0, shebang.chain(declarations.into_iter().map(Some)))
}

fn with_shebang(length: usize) -> Tree {
    let shebang = text(0..0, 9, &"s".repeat(length));
    node(1, 0..0, [Some(shebang)])
}

/// Bytes of an image whose shebang is empty.
const SHEBANG_IMAGE: usize = 5 + 2 + 13 + 13 + 2;

fn source(size: usize, refusal: u8) -> Case {
    let name = format!("source of {size} bytes");
    case(name, &" ".repeat(size), &tree(vec![]), refusal)
}

fn body(size: usize, refusal: u8) -> Case {
    let name = format!("body of {size} bytes");
    case(name, "", &body_tree(size), refusal)
}

/// A tree whose image has a body of so many bytes.
pub(super) fn body_tree(size: usize) -> Tree {
    with_shebang(size + reader::HEADER - SHEBANG_IMAGE)
}

/// Comments of a byte each, every one where the one before ends.
fn comments(count: usize, refusal: u8) -> Case {
    let comments: Vec<_> = (0..count).map(|at| at..at + 1).collect();
    let name = format!("{count} comments");
    of_comments(name, &comments, refusal)
}

/// The same but for the last, which starts before the end of the one before.
fn last_too_early(count: usize) -> Case {
    let last = count - 1;
    let mut comments: Vec<_> = (0..count).map(|at| at..at + 1).collect();
    comments[last].start -= 1;
    let name = format!("{count} comments, the last too early");
    of_comments(name, &comments, 7)
}

fn of_comments(name: String, comments: &[Range<usize>], refusal: u8) -> Case {
    Case {
        name,
        source: vec![b'/'; comments.len()],
        image: image::write(comments, &tree(vec![])),
        refusal,
    }
}

fn frame_of(size: usize, refusal: u8) -> Case {
    let name = format!("frame of {size} bytes");
    let shebang = with_shebang(size - 4 - SHEBANG_IMAGE);
    case(name, "", &shebang, refusal)
}

/// Records of one kind in each other, so many deep.
fn depth(kind: u8, depth: usize, refusal: u8) -> Case {
    let name = format!("records {depth} deep, by kind {kind}");
    case(name, "", &deep_tree(kind, depth), refusal)
}

pub(super) fn deep_tree(kind: u8, depth: usize) -> Tree {
    match kind {
        16 => tree(vec![imports(depth - 1)]),
        40 => tree(vec![constant(options(depth - 2), unit())]),
        _ => {
            let value = value_around(kind, depth - 2);
            tree(vec![constant(node(43, 0..0, []), value)])
        }
    }
}

fn constant(ty: Tree, value: Tree) -> Tree {
    node(11, 0..0, [text(0..0, 1, "c"), ty, value].map(Some))
}

fn unit() -> Tree {
    node(51, 0..0, [Some(chosen(87, 0..0, 3, []))])
}

fn options(levels: usize) -> Tree {
    let innermost = node(42, 0..0, []);
    (1..levels).fold(innermost, |inner, _| node(40, 0..0, [Some(inner)]))
}

/// An import in a group takes two levels; the last may be a lone list.
fn imports(levels: usize) -> Tree {
    let group = match levels {
        1 => None,
        2 => Some(node(3, 0..0, [])),
        _ => Some(node(3, 0..0, [Some(imports(levels - 2))])),
    };
    node(16, 0..0, [None, group])
}

/// An expression of so many levels, of one kind as far as it goes.
fn value_around(kind: u8, levels: usize) -> Tree {
    let around: fn(Tree) -> Tree = match kind {
        52 => in_block,
        54 => called,
        55 => |x| node(55, 0..0, [Some(x), Some(text(0..0, 1, "f"))]),
        59 => in_list,
        63 => as_right_operand,
        64 => |x| node(64, 0..0, [Some(x)]),
        65 => as_condition,
        _ => |x| node(70, 0..0, [Some(x)]),
    };
    let mut value = leaf();
    loop {
        let higher = around(value.clone());
        if higher.height() > levels {
            break;
        }
        value = higher;
    }
    // Some kinds add two levels at once.
    if value.height() < levels {
        called(value)
    } else {
        value
    }
}

fn leaf() -> Tree {
    chosen(50, 0..0, 0, [None])
}

fn called(value: Tree) -> Tree {
    node(54, 0..0, [Some(value), Some(node(3, 0..0, []))])
}

/// A group and an indent for each level: rows nest twice as deep.
fn as_right_operand(value: Tree) -> Tree {
    let operator = chosen(86, 0..0, 13, []);
    node(63, 0..0, [leaf(), operator, value].map(Some))
}

fn as_condition(value: Tree) -> Tree {
    let block = node(23, 0..0, [Some(node(3, 0..0, [])), None]);
    node(65, 0..0, [Some(value), Some(block), None])
}

fn in_block(value: Tree) -> Tree {
    let statements = node(3, 0..0, []);
    let block = node(23, 0..0, [Some(statements), Some(value)]);
    node(52, 0..0, [Some(block)])
}

fn in_list(value: Tree) -> Tree {
    node(59, 0..0, [Some(node(3, 0..0, [Some(value)]))])
}

/// `const c: () = ---();` is 7 rows and one for each minus; each `import ;`
/// after it adds 3 rows, and the final `Line` 1.
fn rows(count: usize, refusal: u8) -> Case {
    let imports = (count - 9) / 3;
    let minuses = count - 8 - 3 * imports;
    let value = (0..minuses).fold(unit(), |x, _| node(64, 0..0, [Some(x)]));
    let mut declarations = vec![constant(node(43, 0..0, []), value)];
    declarations.resize(1 + imports, node(16, 0..0, [None, None]));
    case(format!("{count} rows"), "", &tree(declarations), refusal)
}

/// An f-string that repeats the source as often as it takes.
fn output(size: usize, refusal: u8) -> Case {
    const SOURCE: usize = 10_000;
    let mut left = size - "const c: () = f\"\";\n".len();
    let mut parts = Vec::new();
    while left > 0 {
        let length = left.min(SOURCE);
        parts.push(Some(node(84, 0..length, [])));
        left -= length;
    }
    let value = node(69, 0..0, [Some(node(3, 0..0, parts))]);
    let tree = tree(vec![constant(node(43, 0..0, []), value)]);
    let name = format!("output of {size} bytes");
    case(name, &"x".repeat(SOURCE), &tree, refusal)
}
