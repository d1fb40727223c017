//! The words of an explanation.

use std::fmt;

use super::{Due, Explanation};
use crate::kind;

/// So many of the records that are open are named, the last ones.
const NAMED: usize = 5;

impl fmt::Display for Explanation {
    fn fmt(&self, f: &mut fmt::Formatter<'_>) -> fmt::Result {
        write!(f, "step {} at {}, ", self.number, self.at)?;
        match &self.step {
            Some(step) => write!(f, "`{step}`")?,
            None if self.ends => f.write_str("the list's end")?,
            None => f.write_str(
                "which is unknown or cut off, or a text that isn't UTF-8",
            )?,
        }
        if !self.within.is_empty() {
            let more = self.within.len() > NAMED;
            let named = self.within.len().saturating_sub(NAMED);
            let names = self.within[named..].iter().map(|kind| name(*kind));
            let names = names.collect::<Vec<_>>().join(" > ");
            write!(f, ", in {}{names}", if more { "… > " } else { "" })?;
            if self.due.payload.is_none() && !self.due.text {
                write!(f, ", child {}", self.children + 1)?;
            }
        }
        match self.fault {
            Some(fault) => write!(f, ": {fault}"),
            None => write!(f, ": due is {}", self.due),
        }
    }
}

/// The name of a kind, or its number.
fn name(number: u8) -> String {
    kind::name(number).map_or(format!("kind {number}"), str::to_owned)
}

impl fmt::Display for Due {
    fn fmt(&self, f: &mut fmt::Formatter<'_>) -> fmt::Result {
        let mut all = Vec::new();
        if self.comment {
            all.push("a comment".to_owned());
        }
        if !self.kinds.is_empty() {
            let article = match self.close {
                true => "a further",
                false if self.comment => "the",
                false => "its",
            };
            let kinds = self.kinds.iter().map(|kind| name(*kind)).collect();
            all.push(format!("{article} {}: {}", self.role, listed(kinds)));
        }
        if self.absent {
            all.push("`absent`".into());
        }
        if self.text {
            all.push("its text".into());
        }
        if let Some(most) = self.payload {
            all.push(format!("its payload byte, 0 to {most}"));
        }
        if self.close {
            all.push("`close`".into());
        }
        if self.end {
            all.push("nothing more, the tree is closed".into());
        }
        f.write_str(&all.join("; or "))
    }
}

/// `A, B or C`.
fn listed(mut names: Vec<String>) -> String {
    match names.pop() {
        Some(last) if !names.is_empty() => {
            format!("{} or {last}", names.join(", "))
        }
        last => last.unwrap_or_default(),
    }
}
