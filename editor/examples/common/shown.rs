//! How a path is shown.

use std::path::Path;

/// A path on one line, and so that it can be told from every other: with
/// escapes, if it isn't UTF-8 or has control characters.
pub fn shown(path: &Path) -> String {
    match path.to_str() {
        Some(name) if !name.contains(char::is_control) => name.to_owned(),
        _ => format!("{path:?}"),
    }
}
