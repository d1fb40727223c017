//! Whether a text is made of comments and tokens: each once, in order, with
//! nothing around them but blanks, newlines, and commas where a list ends.

use std::{cmp::Reverse, collections::BinaryHeap, fmt};

use crate::{contents::Place, tokens::Token};

/// Comments and tokens, each in order. Which of the two comes first is left
/// open.
#[derive(Clone, Copy, Debug)]
pub struct Pieces<'p> {
    /// Each is written with a newline behind it.
    pub comments: &'p [&'p str],
    pub tokens: &'p [Token<'p>],
}

/// Where no way of reading a text as pieces goes on.
#[derive(Clone, Debug, Default, PartialEq, Eq)]
pub struct Fault {
    pub at: usize,
    /// What comes before, by one of the ways that lead there.
    pub before: Place,
}

impl fmt::Display for Fault {
    fn fmt(&self, f: &mut fmt::Formatter) -> fmt::Result {
        let Place { comments, tokens } = self.before;
        write!(
            f,
            "byte {}, behind {comments} comments and {tokens} tokens",
            self.at
        )
    }
}

/// Bytes that may stand around pieces wherever they like. A comment starts
/// with none of them.
pub fn is_filler(byte: u8) -> bool {
    matches!(byte, b' ' | b'\n')
}

fn is_blank(text: &str) -> bool {
    text.bytes().all(is_filler)
}

impl Pieces<'_> {
    /// Whether a text is made of all of them.
    pub fn make(&self, text: &[u8]) -> Result<(), Fault> {
        let all = Place {
            comments: self.comments.len(),
            tokens: self.tokens.len(),
        };
        self.read(text, |place| place == all)
    }

    /// Whether a text is made of the first so many comments and tokens.
    pub fn begin(&self, text: &[u8]) -> Result<(), Fault> {
        self.read(text, |_| true)
    }

    /// Follows all ways of reading a text, from its start to its end, where
    /// one of them must have come to the right place.
    ///
    /// Comments and texts of the image may be anything, empty or blank ones
    /// too, so that there may be many ways to a byte.
    fn read(
        &self,
        text: &[u8],
        right: impl Fn(Place) -> bool,
    ) -> Result<(), Fault> {
        let mut ways = Ways::from([Reverse((0, Way::default()))]);
        let mut here = Vec::new();
        let mut fault = Fault::default();
        while let Some(at) = take_first(&mut ways, &mut here) {
            self.keep_best(&mut here);
            if at == text.len() && here.iter().any(|way| right(way.before)) {
                return Ok(());
            }
            let mut add = |on, way| ways.push(Reverse((at + on, way)));
            for way in &here {
                self.steps(*way, &text[at..], &mut add);
            }
            let before = here[0].before;
            fault = Fault { at, before };
        }
        Err(fault)
    }

    /// Where a way may go from here: how many bytes on, and what it is then.
    fn steps(&self, way: Way, text: &[u8], add: &mut impl FnMut(usize, Way)) {
        let Place { comments, tokens } = way.before;
        let Some(first) = text.first() else {
            return;
        };
        let token = self.tokens.get(tokens);
        if is_filler(*first) {
            add(1, way);
        }
        let may_end = token.is_some_and(|token| token.ends_list);
        if *first == b',' && may_end && !way.comma {
            add(1, Way { comma: true, ..way });
        }
        if let Some(comment) = self.comments.get(comments)
            && let Some(behind) = text.strip_prefix(comment.as_bytes())
            && behind.first() == Some(&b'\n')
        {
            let mut way = way;
            way.before.comments += 1;
            add(comment.len() + 1, way);
        }
        if let Some(token) = token
            && text.starts_with(token.text.as_bytes())
        {
            add(token.text.len(), way.behind_token());
        }
    }

    /// Drops the ways to a byte from which the text can only be read if it can
    /// be read from another of them.
    ///
    /// A way that has a blank piece more behind it is as good: where the other
    /// one finds that piece later on, this one finds filler. So empty tokens
    /// are passed at once.
    fn keep_best(&self, ways: &mut Vec<Way>) {
        for way in ways.iter_mut() {
            while let Some(token) = self.tokens.get(way.before.tokens)
                && token.text.is_empty()
            {
                *way = way.behind_token();
            }
        }
        if ways.len() > 1 {
            ways.sort();
            ways.dedup();
            let all = ways.clone();
            let there = |way: Way| all.binary_search(&way).is_ok();
            ways.retain(|way| {
                !self.better(*way).into_iter().flatten().any(there)
            });
        }
    }

    /// Ways that are as good as this one.
    fn better(&self, way: Way) -> [Option<Way>; 3] {
        let Place { comments, tokens } = way.before;
        let comment = self.comments.get(comments).filter(|c| is_blank(c));
        let token = self.tokens.get(tokens).filter(|t| is_blank(t.text));
        let mut behind_comment = way;
        behind_comment.before.comments += 1;
        let unused = Way {
            comma: false,
            ..way
        };
        [
            comment.map(|_| behind_comment),
            token.map(|_| way.behind_token()),
            way.comma.then_some(unused),
        ]
    }
}

/// Ways still to be followed, by how many bytes they have read.
type Ways = BinaryHeap<Reverse<(usize, Way)>>;

/// Takes all ways to the first byte that any of them leads to.
fn take_first(ways: &mut Ways, here: &mut Vec<Way>) -> Option<usize> {
    let Reverse((at, way)) = ways.pop()?;
    here.clear();
    here.push(way);
    while let Some(Reverse((there, way))) = ways.peek()
        && *there == at
    {
        here.push(*way);
        ways.pop();
    }
    Some(at)
}

/// A way of reading the bytes so far.
#[derive(Clone, Copy, Debug, Default, PartialEq, Eq, PartialOrd, Ord)]
struct Way {
    before: Place,
    /// A comma stands behind the last token.
    comma: bool,
}

impl Way {
    fn behind_token(mut self) -> Way {
        self.before.tokens += 1;
        self.comma = false;
        self
    }
}
