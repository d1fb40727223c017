//! Rows to time rendering on, and the same as the original's nodes.

use judge::{
    calls::Given,
    driver::{HeldTexts, Texts},
    image::{self, node},
    rows::{self, Row},
};

/// Groups in each other, in a deep document: the rows' own limit is 256.
const DEEP: usize = 250;
/// Parts of a group, in a nested document.
const FAN: usize = 6;

pub struct Document {
    pub name: String,
    pub rows: Vec<Row>,
}

/// Source and image that rendering is given; no row points into them.
pub struct Empty(Vec<u8>);

impl Empty {
    pub fn new() -> Self {
        Empty(image::write(&[], &node(1, 0..0, [None])))
    }

    pub fn given(&self) -> Given<'_> {
        Given {
            source: b"",
            image: &self.0,
        }
    }
}

impl Default for Empty {
    fn default() -> Self {
        Empty::new()
    }
}

/// The fixed words alone.
pub fn texts() -> HeldTexts {
    HeldTexts::new(Texts {
        source: b"",
        image: b"",
        words: rows::fixed_words().as_bytes(),
    })
}

/// Puts about so many rows.
type Fill = fn(&mut Vec<Row>, usize);

/// Documents of growing size, of three shapes each.
pub fn growing() -> Vec<Document> {
    let sizes = [1_000, 10_000, 100_000, 1_000_000, 2_000_000];
    let mut documents = Vec::new();
    for size in sizes {
        let shapes: [(&str, Fill); 3] =
            [("flat", flat), ("nested", nested), ("250 deep", deep)];
        for (name, fill) in shapes {
            let mut rows = Vec::new();
            fill(&mut rows, size);
            documents.push(Document {
                name: name.into(),
                rows,
            });
        }
    }
    documents
}

/// How deep rows may be.
pub const DEPTH: usize = 256;

/// Which part of an `IfWrap` is chosen and goes on.
#[derive(Clone, Copy, PartialEq)]
enum Chosen {
    First,
    Second,
}

/// Rows of a depth, of every kind that holds others, with the first part of
/// each `IfWrap` chosen, and with the second.
pub fn of_depth(depth: usize) -> [Document; 2] {
    [Chosen::First, Chosen::Second].map(|chosen| {
        let mut rows = Vec::new();
        if depth > 1 {
            // group 0 wraps, and with it each `IfWrap` of its number
            group(&mut rows, 0, |rows| leaf(rows, rows::WRAP_PARENT));
        }
        open(&mut rows, depth - 1, chosen);
        Document {
            name: format!("{depth} deep"),
            rows,
        }
    })
}

fn open(rows: &mut Vec<Row>, levels: usize, chosen: Chosen) {
    if levels == 0 {
        return leaf(rows, rows::ASCII);
    }
    let place = rows.len();
    let kind = match levels % 5 {
        0 => rows::CALL,
        1 => rows::INDENT,
        2 => rows::INDENT_NEXT,
        3 => rows::IF_WRAP,
        _ => rows::GROUP,
    };
    rows.push(Row {
        kind,
        ..Row::default()
    });
    if kind == rows::IF_WRAP && chosen == Chosen::Second {
        // no group has this number
        rows[place].number = 1;
        leaf(rows, rows::ASCII);
        rows[place].second_part = rows.len() as u32;
    }
    open(rows, levels - 1, chosen);
    if kind == rows::CALL {
        rows[place].second_part = rows.len() as u32;
    }
    if kind == rows::IF_WRAP && chosen == Chosen::First {
        rows[place].second_part = rows.len() as u32;
        leaf(rows, rows::ASCII);
    }
    rows[place].after = rows.len() as u32;
}

fn leaf(rows: &mut Vec<Row>, kind: u32) {
    let text = kind == rows::ASCII;
    rows.push(Row {
        kind,
        after: rows.len() as u32 + 1,
        origin: if text { rows::WORDS } else { 0 },
        length: if text { 6 } else { 0 },
        ..Row::default()
    });
}

fn flat(rows: &mut Vec<Row>, size: usize) {
    let kinds = [rows::ASCII, rows::LINE_OR_SPACE, rows::ASCII, rows::LINE];
    for place in 0..size {
        leaf(rows, kinds[place % kinds.len()]);
    }
}

/// A tree of groups, each with about as many rows in each part.
fn nested(rows: &mut Vec<Row>, size: usize) {
    let number = rows.len() as u32;
    group(rows, number, |rows| {
        let part = (size - 1) / FAN;
        if part < 4 {
            flat(rows, size - 1);
            return;
        }
        for _ in 1..FAN {
            nested(rows, part);
        }
        nested(rows, size - 1 - part * (FAN - 1));
    });
}

/// Chains of groups, a text beside each inner one.
fn deep(rows: &mut Vec<Row>, size: usize) {
    while rows.len() < size {
        chain(rows, DEEP - 1);
    }
}

fn chain(rows: &mut Vec<Row>, levels: usize) {
    if levels == 0 {
        return leaf(rows, rows::LINE_OR_SPACE);
    }
    group(rows, levels as u32, |rows| {
        leaf(rows, rows::ASCII);
        chain(rows, levels - 1);
    });
}

fn group(rows: &mut Vec<Row>, number: u32, fill: impl FnOnce(&mut Vec<Row>)) {
    let place = rows.len();
    rows.push(Row {
        kind: rows::GROUP,
        number,
        ..Row::default()
    });
    fill(rows);
    rows[place].after = rows.len() as u32;
}
