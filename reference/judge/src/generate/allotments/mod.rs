//! Renderings by allotment (request 12): documents to stop in everywhere,
//! lists of calls, and states handed in that are nearly those of a stop.

mod fixed;
mod handed;
mod lists;

use super::{
    CallCase, Draft, broad, edges, feet, lists as calls, random_rows,
    realistic, rules, wild,
};
use crate::{
    calls::{Given, World},
    choice::Choice,
    driver::{Page, Pen, RenderedRows, Start, Texts, every_stop},
    random::Random,
    rows::{self, Row},
    rule::SUPPLIED,
};

pub use fixed::cases as fixed;
pub use handed::{Twist, case as handed};
pub use lists::case as list;

const RANDOM: u64 = 120;

/// Rows to render from a fresh state.
#[derive(Clone, Debug)]
pub struct Document {
    pub source: Vec<u8>,
    pub image: Vec<u8>,
    pub rows: Vec<Row>,
    pub page: Page,
    /// Rows at which layout could have stopped, the last of them the end.
    pub ends: Vec<usize>,
}

impl Document {
    pub fn given(&self) -> Given<'_> {
        Given {
            source: &self.source,
            image: &self.image,
        }
    }

    /// Where a rendering from fresh stands as it enters each row, and in the
    /// end.
    pub fn stops(&self) -> Vec<RenderedRows> {
        let words = rows::fixed_words();
        let texts = Texts {
            source: &self.source,
            image: &self.image,
            words: words.as_bytes(),
        };
        let start = Start::at(0, Pen::default());
        every_stop(texts, &self.rows, start, self.page)
    }

    /// The rows in a store, with marks that hold junk, and a few places behind
    /// both.
    pub fn world(&self) -> World {
        const BEHIND: usize = 3;
        let marks = rows::marks_needed(&self.rows) as usize;
        let mut world = World {
            store: vec![0xC0DE; (self.rows.len() + 1) * Row::CELLS + BEHIND],
            marks: vec![9; marks + BEHIND],
            ..World::default()
        };
        world.put_rows(0, &self.rows);
        world
    }
}

/// A document by seed and index: files of all classes, and rows of any shape.
pub fn document(seed: u64, index: u64) -> Document {
    let random = &mut Random::new(RANDOM, seed, index);
    of_any(random)
}

fn of_any(random: &mut Random) -> Document {
    if random.once_in(3) {
        return of_rows(random);
    }
    let choice = Choice {
        rule: rules::legal(random),
        ..calls::choice(random)
    };
    let draft = draft(random, choice);
    of_draft(draft, choice).unwrap_or_else(|| of_rows(random))
}

fn draft(random: &mut Random, choice: Choice) -> Draft {
    match random.below(12) {
        0 => realistic::draft(random),
        1 => wild::draft(random),
        2 => edges::draft_at(random, choice.width),
        3 => feet::draft(random),
        4 => broad::draft(random, choice),
        5 => realistic::short_broad_draft(random),
        _ => realistic::short_draft(random),
    }
}

/// The rows of a file that the original formats.
fn of_draft(draft: Draft, choice: Choice) -> Option<Document> {
    let image = draft.image();
    let run = calls::formatted(&draft, &image, choice)?;
    let Choice { width, rule, .. } = choice;
    let stops = run.stops.iter().map(|stop| stop.next_row);
    Some(Document {
        source: draft.source.into_bytes(),
        image,
        page: Page { width, rule },
        ends: stops.chain([run.rows.len()]).collect(),
        rows: run.rows,
    })
}

/// Rows of any legal shape, which no layout need have written.
fn of_rows(random: &mut Random) -> Document {
    let source: Vec<u8> = (0..40).map(|_| random.byte()).collect();
    let image = b"\x01\0\0\0\x07\0\0abcde".to_vec();
    let sizes = [source.len(), image.len()];
    let rows = random_rows::rows(random, sizes, 0);
    let mut ends = vec![0];
    while let Some(row) = rows.get(ends[ends.len() - 1]) {
        ends.push(row.after as usize);
    }
    Document {
        source,
        image,
        page: Page {
            width: calls::width(random),
            rule: SUPPLIED,
        },
        rows,
        ends,
    }
}
