//! What a file says: the comments of its list and the tokens of its tree.

use crate::{
    holds::Pieces,
    reader::Accepted,
    tokens::{Tokens, tokens},
};

/// How many comments and how many tokens come before a place of the text.
#[derive(Clone, Copy, Debug, Default, PartialEq, Eq, PartialOrd, Ord)]
pub struct Place {
    pub comments: usize,
    pub tokens: usize,
}

#[derive(Clone, Debug)]
pub struct Contents<'i> {
    /// In the list's order, white space at their ends cut.
    pub comments: Vec<&'i str>,
    pub tokens: Tokens<'i>,
}

impl<'i> Contents<'i> {
    pub fn of(accepted: &Accepted<'i>) -> Self {
        let source = accepted.source;
        let comments = accepted.comments.iter();
        Contents {
            comments: comments
                .map(|comment| source[comment.clone()].trim_end())
                .collect(),
            tokens: tokens(accepted),
        }
    }

    /// The place behind so many comments and the whole tree.
    pub fn end(&self, comments: usize) -> Place {
        let tokens = self.tokens.all.len();
        Place { comments, tokens }
    }

    /// The place behind so many comments, the shebang and so many
    /// declarations.
    pub fn behind(&self, comments: usize, declarations: usize) -> Place {
        let tokens = self.tokens.stops[declarations];
        Place { comments, tokens }
    }

    /// The pieces from one place to another, if there are so many.
    pub fn between(&self, from: Place, to: Place) -> Option<Pieces<'_>> {
        Some(Pieces {
            comments: self.comments.get(from.comments..to.comments)?,
            tokens: self.tokens.all.get(from.tokens..to.tokens)?,
        })
    }
}
