//! The text of settings, read line by line.

use super::{Settings, SettingsError};
use crate::{
    limits::{MAX_LINE_WIDTH, MIN_LINE_WIDTH},
    options::{Comments, Widths},
};

pub(super) fn settings(text: &str) -> Result<Settings, SettingsError> {
    let mut read = Settings::default();
    let mut start = 0;
    for line in text.split_inclusive('\n') {
        let fault =
            |(within, words)| SettingsError::at(text, start + within, words);
        take(&mut read, line).map_err(fault)?;
        start += line.len();
    }
    Ok(read)
}

/// A fault: where in the line, and what it is.
type Fault = (usize, String);

/// What a line says, if it isn't empty.
fn take(read: &mut Settings, line: &str) -> Result<(), Fault> {
    let said = without_comment(line);
    let key_at = said.len() - said.trim_start().len();
    if said.trim().is_empty() {
        return Ok(());
    }
    let Some((key, value)) = said.split_once('=') else {
        return Err((key_at, "no line `key = value`".into()));
    };
    let value_at = key.len() + 1 + value.len() - value.trim_start().len();
    let (key, value) = (key.trim(), value.trim());
    let wrong = |taken: String| {
        let given = match value {
            "" => "and there is none".into(),
            value => format!("not {}", value.escape_debug()),
        };
        (value_at, format!("{taken}, {given}"))
    };
    match key {
        "width" => {
            let width = width(value).map_err(wrong)?;
            once(&mut read.width, width)
        }
        "unicode" => {
            let widths = edition(value).map_err(wrong)?;
            once(&mut read.widths, widths)
        }
        "comments" => {
            let comments = comments(value).map_err(wrong)?;
            once(&mut read.comments, comments)
        }
        _ => Err("there are `width`, `unicode` and `comments`"),
    }
    .map_err(|why| {
        (key_at, format!("the key `{}`: {why}", key.escape_debug()))
    })
}

/// A line up to its comment. No value that is understood holds a `#`.
fn without_comment(line: &str) -> &str {
    line.split('#').next().unwrap_or_default()
}

fn once<T>(place: &mut Option<T>, value: T) -> Result<(), &'static str> {
    match place.replace(value) {
        None => Ok(()),
        Some(_) => Err("it stands there twice"),
    }
}

fn width(value: &str) -> Result<usize, String> {
    let digits = value.bytes().all(|byte| byte.is_ascii_digit());
    // A number with a 0 before it is none in TOML.
    let plain = digits && !value.starts_with('0');
    let number = value.parse().ok().filter(|_| plain);
    number
        .filter(|width| (MIN_LINE_WIDTH..=MAX_LINE_WIDTH).contains(width))
        .ok_or_else(|| {
            format!(
                "`width` is a number from {MIN_LINE_WIDTH} to {MAX_LINE_WIDTH}"
            )
        })
}

fn edition(value: &str) -> Result<Widths, String> {
    match unquoted(value) {
        Some("15.1") => Ok(Widths::Unicode15_1),
        Some("16.0") => Ok(Widths::Unicode16_0),
        _ => Err(r#"`unicode` is "15.1" or "16.0""#.into()),
    }
}

fn comments(value: &str) -> Result<Comments, String> {
    match unquoted(value) {
        Some("all") => Ok(Comments::All),
        Some("as-roto") => Ok(Comments::AsRoto),
        _ => Err(r#"`comments` is "all" or "as-roto""#.into()),
    }
}

/// What stands between two marks of the same kind.
fn unquoted(value: &str) -> Option<&str> {
    let within = |mark| value.strip_prefix(mark)?.strip_suffix(mark);
    within('"').or_else(|| within('\''))
}
