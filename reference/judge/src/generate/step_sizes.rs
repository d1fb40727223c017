//! Lists of steps at each size of document 01, and one more.

use std::sync::LazyLock;

use super::{
    sizes,
    step_lists::{numbered_comments, of_tree},
};
use crate::{
    reader::{self, MOST_BODY, MOST_COMMENTS},
    steps::{Step, joined},
};

/// A list, and the refusal that is due where there is room, or 0.
#[derive(Clone, Debug)]
pub struct Case {
    pub name: String,
    pub list: Vec<u8>,
    pub refusal: u8,
}

/// All cases: at each size, and past it.
pub fn cases() -> &'static [Case] {
    static CASES: LazyLock<Vec<Case>> = LazyLock::new(make_cases);
    &CASES
}

fn make_cases() -> Vec<Case> {
    let mut cases = Vec::new();
    for more in [0, 1] {
        let past = |number| if more == 1 { number } else { 0 };
        cases.push(comments(MOST_COMMENTS + more, past(16)));
        cases.push(body(MOST_BODY + more, past(17)));
        for shape in sizes::DEEP {
            let depth = reader::MOST_DEPTH + more;
            cases.push(deep(shape, depth, past(16)));
        }
    }
    cases.push(last_too_early(MOST_COMMENTS));
    cases
}

/// Comments of a byte each, every one where the one before ends.
fn comments(count: usize, refusal: u8) -> Case {
    let name = format!("{count} comments");
    of_comments(name, numbered_comments(count), refusal)
}

/// The same but for the last, which starts before the end of the one before.
fn last_too_early(count: usize) -> Case {
    let mut steps = numbered_comments(count);
    if let Some(Step::Comment { start, .. }) = steps.last_mut() {
        *start -= 1;
    }
    let name = format!("{count} comments, the last too early");
    of_comments(name, steps, 16)
}

fn of_comments(name: String, mut steps: Vec<Step>, refusal: u8) -> Case {
    of_tree(&mut steps, &sizes::tree(vec![]));
    Case {
        name,
        list: joined(&steps),
        refusal,
    }
}

fn body(size: usize, refusal: u8) -> Case {
    let mut steps = Vec::new();
    of_tree(&mut steps, &sizes::body_tree(size));
    Case {
        name: format!("body of {size} bytes"),
        list: joined(&steps),
        refusal,
    }
}

fn deep(kind: u8, depth: usize, refusal: u8) -> Case {
    let mut steps = Vec::new();
    of_tree(&mut steps, &sizes::deep_tree(kind, depth));
    Case {
        name: format!("records {depth} deep, by kind {kind}"),
        list: joined(&steps),
        refusal,
    }
}
