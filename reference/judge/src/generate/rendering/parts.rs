//! Nodes to be written as rows, and a rendering call on them.

use super::super::CallCase;
use crate::{
    allotment::ALL_ROWS,
    calls::{Call, RenderArgs, World},
    driver::Pen,
    rows::{self, Row},
    rule::SUPPLIED,
    width::REFERENCE,
};

/// Not UTF-8, and 13 bytes long: rendering takes any bytes.
pub const SOURCE: &[u8] = b"012 456\xC3\xA9 a\xFFz";
/// A header and two bytes: rendering looks at no more.
pub const IMAGE: &[u8] = b"\x01\0\0\0\x02im";

/// A node of fmt.rs.
#[derive(Clone, Debug)]
pub enum Part {
    Group(u32, Vec<Part>),
    Indent(Vec<Part>),
    IndentNext(Vec<Part>),
    WrapParent,
    Comment(Text),
    Str(u32, Text),
    Ascii(Text),
    Line,
    EmptyLine,
    LineOrSpace,
    IfWrap(u32, Box<[Part; 2]>),
    Call(u32, Vec<Part>, u32, Vec<Part>),
}

/// Origin, start, length.
pub type Text = [u32; 3];

pub fn group(number: u32, parts: impl Into<Vec<Part>>) -> Part {
    Part::Group(number, parts.into())
}

pub fn if_wrap(number: u32, first: Part, second: Part) -> Part {
    Part::IfWrap(number, Box::new([first, second]))
}

/// `Ascii` of so many bytes, at most 178: the fixed words from their start.
pub fn wide(length: u32) -> Part {
    Part::Ascii([rows::WORDS, 0, length])
}

/// A short text of the source.
pub fn word() -> Part {
    Part::Ascii([rows::SOURCE, 4, 3])
}

pub fn comment() -> Part {
    Part::Comment([rows::SOURCE, 8, 5])
}

/// One of each kind, in `Node`'s order.
pub fn each_kind() -> [Part; 12] {
    [
        group(1, [word(), Part::Line]),
        Part::Indent(vec![word(), Part::Line, word()]),
        Part::IndentNext(vec![word(), Part::Line, word()]),
        Part::WrapParent,
        comment(),
        Part::Str(7, [rows::IMAGE, 5, 2]),
        word(),
        Part::Line,
        Part::EmptyLine,
        Part::LineOrSpace,
        if_wrap(0, word(), wide(6)),
        Part::Call(0, vec![word()], 1, vec![wide(3), Part::Line]),
    ]
}

/// The rows of nodes, the first of which is row `base`.
pub fn rows(parts: &[Part], base: usize) -> Vec<Row> {
    let mut rows = Vec::new();
    put(parts, base, &mut rows);
    rows
}

fn put(parts: &[Part], base: usize, rows: &mut Vec<Row>) {
    for part in parts {
        let place = rows.len();
        rows.push(own_cells(part));
        match part {
            Part::Group(_, parts)
            | Part::Indent(parts)
            | Part::IndentNext(parts) => put(parts, base, rows),
            Part::IfWrap(_, parts) => {
                put(&parts[..1], base, rows);
                rows[place].second_part = (base + rows.len()) as u32;
                put(&parts[1..], base, rows);
            }
            Part::Call(_, callee, _, arguments) => {
                put(callee, base, rows);
                rows[place].second_part = (base + rows.len()) as u32;
                put(arguments, base, rows);
            }
            _ => {}
        }
        rows[place].after = (base + rows.len()) as u32;
    }
}

/// A row but for its references to other rows.
fn own_cells(part: &Part) -> Row {
    let of = |kind, number, second_number| Row {
        kind,
        number,
        second_number,
        ..Row::default()
    };
    let text = |kind, [origin, start, length]: Text| Row {
        origin,
        start,
        length,
        ..of(kind, 0, 0)
    };
    match part {
        Part::Group(number, _) => of(rows::GROUP, *number, 0),
        Part::Indent(_) => of(rows::INDENT, 0, 0),
        Part::IndentNext(_) => of(rows::INDENT_NEXT, 0, 0),
        Part::WrapParent => of(rows::WRAP_PARENT, 0, 0),
        Part::Comment(of_text) => text(rows::COMMENT, *of_text),
        Part::Str(width, of_text) => Row {
            width: *width,
            ..text(rows::STR, *of_text)
        },
        Part::Ascii(of_text) => text(rows::ASCII, *of_text),
        Part::Line => of(rows::LINE, 0, 0),
        Part::EmptyLine => of(rows::EMPTY_LINE, 0, 0),
        Part::LineOrSpace => of(rows::LINE_OR_SPACE, 0, 0),
        Part::IfWrap(number, _) => of(rows::IF_WRAP, *number, 0),
        Part::Call(number, _, second, _) => of(rows::CALL, *number, *second),
    }
}

/// All bytes of output that a call could want.
pub const PLENTY: usize = 4_096;

/// One call on all of these rows, from fresh, with two marks that hold junk.
pub fn on_rows(rows: &[Row]) -> CallCase {
    let cells = rows.iter().flat_map(|row| row.cells());
    CallCase {
        source: SOURCE.to_vec(),
        image: IMAGE.to_vec(),
        world: World {
            store: cells.collect(),
            marks: vec![9, 8],
            ..World::default()
        },
        calls: vec![render(rows.len(), PLENTY)],
    }
}

pub fn render(stop: usize, room: usize) -> Call {
    render_at(REFERENCE, stop, room)
}

pub fn render_at(width: usize, stop: usize, room: usize) -> Call {
    Call::Render(RenderArgs {
        stop,
        room,
        width,
        rule: SUPPLIED,
        allotment: ALL_ROWS,
    })
}

/// One call on nodes, from fresh.
pub fn on(parts: &[Part]) -> CallCase {
    on_rows(&rows(parts, 0))
}

/// A call on nodes with this state of the pen.
pub fn on_from(pen: [usize; 3], parts: &[Part]) -> CallCase {
    let mut case = on(parts);
    case.world.rendering.pen = self::pen(pen);
    case
}

/// `indent`, `next_indent`, `column`.
pub fn pen([indent, next_indent, column]: [usize; 3]) -> Pen {
    Pen {
        indent,
        next_indent,
        column,
    }
}
