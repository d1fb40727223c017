//! Renders rows: turns them back into nodes for the real `Renderer`, and by
//! the second form row by row.

use super::{
    super::{Node, Nodes},
    Page, Pen,
    noted::Noted,
    resumed,
    start::{Halt, Start},
};
use crate::{
    listed::Listed,
    rows::{self, Row},
    rule,
};

/// The bytes that rows may point into, by origin.
#[derive(Clone, Copy, Debug)]
pub struct Texts<'t> {
    pub source: &'t [u8],
    pub image: &'t [u8],
    pub words: &'t [u8],
}

impl Texts<'_> {
    /// The bytes of an origin that there is.
    pub fn origin(&self, origin: u32) -> Option<&[u8]> {
        match origin {
            rows::SOURCE => Some(self.source),
            rows::IMAGE => Some(self.image),
            rows::WORDS => Some(self.words),
            _ => None,
        }
    }
}

/// What a rendering writes, as bytes: a row may hold half a character; and
/// where it stops.
#[derive(Clone, Debug, PartialEq, Eq)]
pub struct RenderedRows {
    pub text: Vec<u8>,
    pub marks: Vec<u8>,
    pub pen: Pen,
    /// The greatest value that `column` was set to, 0 before the first.
    pub greatest_column: usize,
    pub next_row: usize,
    pub listed: Listed,
    /// The rows entered.
    pub entered: usize,
}

/// Renders as many rows as are allotted, up to the store's end, by the second
/// form; where no row is listed by the original too, which must give the same.
/// The rows must have passed the row check under the page's rule, and 23.
pub fn render_rows(
    texts: Texts,
    rows: &[Row],
    start: Start,
    page: Page,
    allotment: usize,
) -> RenderedRows {
    let rendered = in_bytes(texts, page, |texts| {
        resumed::render(texts, rows, start, page, allotment)
    });
    let rendered = RenderedRows::new(rows, start, rendered);
    if cfg!(debug_assertions) && start.listed.is_empty() {
        let original = in_bytes(texts, page, |texts| {
            Noted::new(texts, rows, start, page).stop(allotment)
        });
        let original = RenderedRows::new(rows, start, original);
        assert_eq!(original, rendered, "the two forms differ");
    }
    rendered
}

/// Where the original stands as it enters each row from a start, no row being
/// listed, and in the end; read off one run.
pub fn every_stop(
    texts: Texts,
    rows: &[Row],
    start: Start,
    page: Page,
) -> Vec<RenderedRows> {
    assert!(start.listed.is_empty(), "the original begins at a whole row");
    let count = in_halves(texts, page, |texts| {
        Noted::new(texts, rows, start, page).stops()
    });
    let stops = count.into_iter();
    stops
        .map(|halves| RenderedRows::new(rows, start, joined(halves)))
        .collect()
}

/// A run of the real `Renderer`, on the texts as they are or on letters in
/// their place.
///
/// It takes no text that isn't UTF-8. Where widths are supplied it never looks
/// into a text either, so it is run twice, with a letter for each byte's high
/// half and then its low half, and the halves are put together. Under the
/// other rules the row check saw to it that each text is UTF-8.
fn in_bytes(
    texts: Texts,
    page: Page,
    run: impl Fn(&dyn Spelled) -> Halt,
) -> (Vec<u8>, Halt) {
    let one = |texts: &dyn Spelled| vec![run(texts)];
    let mut halves = in_halves(texts, page, one);
    joined(halves.pop().expect("one stop"))
}

/// Each stop of such a run, by either half or whole.
fn in_halves(
    texts: Texts,
    page: Page,
    run: impl Fn(&dyn Spelled) -> Vec<Halt>,
) -> Vec<(Halt, Option<Halt>)> {
    if page.rule != rule::SUPPLIED {
        return run(&texts).into_iter().map(|one| (one, None)).collect();
    }
    let high = run(&Shadow::new(texts, |byte| byte >> 4));
    let low = run(&Shadow::new(texts, |byte| byte & 15));
    assert_eq!(high.len(), low.len());
    high.into_iter().zip(low.into_iter().map(Some)).collect()
}

/// The text of a stop, and what else it is.
fn joined((high, low): (Halt, Option<Halt>)) -> (Vec<u8>, Halt) {
    let text = match &low {
        None => high.text.clone().into_bytes(),
        Some(low) => {
            let pairs = high.text.bytes().zip(low.text.bytes());
            pairs.map(|(high, low)| whole(high, low)).collect()
        }
    };
    (text, high)
}

impl RenderedRows {
    /// Marks grow to the largest number that the rows read hold, plus 1,
    /// whether they are entered or not.
    fn new(rows: &[Row], start: Start, (text, halt): (Vec<u8>, Halt)) -> Self {
        let listed = start.listed.first().map(|open| open.row);
        let from = listed.map_or(start.row, |row| row.min(start.row));
        let needed = rows::marks_needed(&rows[from..]) as usize;
        let mut marks = vec![0; needed.max(start.marks.len())];
        for number in &halt.wrapped {
            marks[*number] = 1;
        }
        RenderedRows {
            text,
            marks,
            pen: halt.pen,
            greatest_column: halt.greatest,
            next_row: halt.next_row,
            listed: halt.listed,
            entered: halt.entered,
        }
    }
}

/// The texts of rows, as the real `Renderer` takes them.
pub(super) trait Spelled {
    fn text(&self, row: &Row) -> &str;
}

impl Spelled for Texts<'_> {
    fn text(&self, row: &Row) -> &str {
        let origin = self.origin(row.origin).expect("an origin");
        let from_start = &origin[row.start as usize..];
        std::str::from_utf8(&from_start[..row.length as usize])
            .expect("the row check saw to it")
    }
}

/// Other texts in place of those of all three origins.
pub(super) struct Shadow(pub(super) [String; 3]);

impl Shadow {
    /// A letter in place of each byte.
    fn new(texts: Texts, half: fn(u8) -> u8) -> Self {
        let letters = |bytes: &[u8]| {
            bytes.iter().map(|b| char::from(b'A' + half(*b))).collect()
        };
        Shadow([texts.source, texts.image, texts.words].map(letters))
    }
}

impl Spelled for Shadow {
    fn text(&self, row: &Row) -> &str {
        let start = row.start as usize;
        &self.0[row.origin as usize][start..start + row.length as usize]
    }
}

/// A byte of the output: what the renderer wrote itself stands in both runs.
fn whole(high: u8, low: u8) -> u8 {
    match high {
        b'\n' | b' ' => high,
        _ => ((high - b'A') << 4) | (low - b'A'),
    }
}

pub(super) fn decode<'t>(
    texts: &'t (impl Spelled + ?Sized),
    rows: &[Row],
    from: usize,
    to: usize,
) -> Vec<Node<'t>> {
    let mut nodes = Vec::new();
    let mut place = from;
    while place < to {
        nodes.push(node(texts, rows, place));
        place = rows[place].after as usize;
    }
    nodes
}

fn node<'t>(
    texts: &'t (impl Spelled + ?Sized),
    rows: &[Row],
    place: usize,
) -> Node<'t> {
    let row = &rows[place];
    let number = row.number as usize;
    let second = row.second_part as usize;
    let parts = |from, to| Nodes(decode(texts, rows, from, to));
    let all = || parts(place + 1, row.after as usize);
    match row.kind {
        rows::GROUP => Node::Group(number, all()),
        rows::INDENT => Node::Indent(all()),
        rows::INDENT_NEXT => Node::IndentNext(all()),
        rows::WRAP_PARENT => Node::WrapParent,
        rows::COMMENT => Node::Comment(texts.text(row)),
        rows::STR => Node::Str(row.width as usize, texts.text(row)),
        rows::ASCII => Node::Ascii(texts.text(row)),
        rows::LINE => Node::Line,
        rows::EMPTY_LINE => Node::EmptyLine,
        rows::LINE_OR_SPACE => Node::LineOrSpace,
        rows::IF_WRAP => Node::IfWrap(
            number,
            Box::new(node(texts, rows, place + 1)),
            Box::new(node(texts, rows, second)),
        ),
        rows::CALL => Node::Call(
            number,
            parts(place + 1, second),
            row.second_number as usize,
            parts(second, row.after as usize),
        ),
        kind => unreachable!("kind {kind} passed the row check"),
    }
}
