//! A file of one's own: its text, by the judge's small parser and the proved
//! formatter. `reference/fmt` is the program for it.

mod meaning;

use std::ops::Range;

use judge::{
    image::{self, Tree},
    script,
};
use rrufthim::{
    File, FormatError, Formatter, Place, Refusal,
    limits::{MAX_BODY, MAX_COMMENTS, MAX_SOURCE},
};

/// Version and length of the body, before an image's body.
const HEADER: usize = 5;

/// A script that was read.
struct Script<'s> {
    source: &'s str,
    comments: Vec<Range<usize>>,
    tree: Tree,
}

impl<'s> Script<'s> {
    /// Reads a text, or says at which byte that ends.
    fn read(source: &'s str) -> Result<Self, usize> {
        let (comments, tree) = script::read(source)?;
        Ok(Script {
            source,
            comments,
            tree,
        })
    }

    /// A comment as the formatter writes it.
    fn comment(&self, at: usize) -> Option<&'s str> {
        let span = self.comments.get(at)?;
        Some(self.source[span.clone()].trim_end())
    }
}

/// A file's text, which holds all of its comments.
#[derive(Debug)]
pub struct Own {
    pub text: String,
    /// Whether the text is too long to be formatted again.
    pub outgrown: bool,
}

/// A file's text, or in words why it has none: with line and column, where
/// it is about a place in the file.
///
/// There is no text that lacks a comment, whatever is chosen, and none that
/// would be read as another file.
pub fn text_of(
    formatter: &mut Formatter,
    bytes: &[u8],
) -> Result<Own, String> {
    let script = read(bytes)?;
    let image = image::write(&script.comments, &script.tree);
    within("bytes of tree", image.len(), HEADER + MAX_BODY)?;
    within("comments", script.comments.len(), MAX_COMMENTS)?;
    let told = |error: FormatError| error.to_string();
    let file = File::new(bytes, &image);
    let formatted = formatter.format_file(file).map_err(told)?;
    let outgrown = formatted.outgrown;
    let text = formatted
        .complete()
        .map_err(|left| comments_lost(&left.0))?;
    same_file(&script, text)?;
    let text = text.to_owned();
    Ok(Own { text, outgrown })
}

fn read(bytes: &[u8]) -> Result<Script<'_>, String> {
    // Before anything is read of it: the parser goes as deep as a file is
    // long.
    if bytes.len() > MAX_SOURCE {
        return Err(Refusal::SourceTooLong.to_string());
    }
    let source = str::from_utf8(bytes).map_err(|error| {
        said_at(bytes, error.valid_up_to(), "this isn't UTF-8")
    })?;
    Script::read(source).map_err(|at| {
        said_at(bytes, at, "the parser doesn't know what stands here")
    })
}

/// What the formatter would refuse too, in words about an image.
fn within(what: &str, count: usize, most: usize) -> Result<(), String> {
    match count > most {
        true => Err(format!("it has {count} {what}, over {most}")),
        false => Ok(()),
    }
}

fn said_at(source: &[u8], at: usize, why: &str) -> String {
    format!("{}: {why}", Place::new(source, at..at))
}

/// Only where the original's way is chosen.
fn comments_lost(left: &[Place]) -> String {
    let first = left.first().map_or(String::new(), Place::to_string);
    let count = match left.len() {
        1 => "a comment".to_owned(),
        many => format!("{many} comments"),
    };
    format!("{first}: Roto's own formatter would drop {count} from here on")
}

/// Whether a text is read as the file that it is the text of.
fn same_file(script: &Script, text: &str) -> Result<(), String> {
    let source = script.source.as_bytes();
    let again = Script::read(text).map_err(|at| {
        let line = line_at(text, at);
        format!("its text would not be read again: {line}")
    })?;
    let count = script.comments.len().max(again.comments.len());
    let changed =
        (0..count).find(|at| script.comment(*at) != again.comment(*at));
    if let Some(changed) = changed {
        let at = script
            .comments
            .get(changed)
            .map_or(source.len(), |c| c.start);
        return Err(said_at(
            source,
            at,
            "its text would change this comment",
        ));
    }
    match meaning::difference(script, &again) {
        None => Ok(()),
        Some(at) => {
            let why = "from here on its text would be read as something else";
            Err(said_at(source, at, why))
        }
    }
}

fn line_at(text: &str, at: usize) -> &str {
    let start = text[..at].rfind('\n').map_or(0, |newline| newline + 1);
    text[start..].lines().next().unwrap_or_default()
}
