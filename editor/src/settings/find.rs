//! Where the settings of a file are.

use std::{
    fs, io,
    path::{Path, PathBuf},
};

use super::SettingsError;

/// What a file of settings is called.
pub const NAME: &str = "rrufthim.toml";

/// The nearest file of settings, in a file's folder or above. A link to the
/// file is looked at where the link is.
pub(super) fn nearest(file: &Path) -> Result<Option<PathBuf>, SettingsError> {
    let folder = match file.parent() {
        Some(folder) if folder != Path::new("") => folder,
        _ => Path::new("."),
    };
    let folder = match fs::canonicalize(folder) {
        Ok(folder) => folder,
        // No file can be there either.
        Err(error) if is_absent(&error) => return Ok(None),
        Err(error) => return Err(SettingsError::unread(folder, &error)),
    };
    for folder in folder.ancestors() {
        let path = folder.join(NAME);
        match fs::symlink_metadata(&path) {
            Ok(_) => return Ok(Some(path)),
            Err(error) if is_absent(&error) => {}
            Err(error) => return Err(SettingsError::unread(&path, &error)),
        }
    }
    Ok(None)
}

fn is_absent(error: &io::Error) -> bool {
    error.kind() == io::ErrorKind::NotFound
}

/// What a file of settings holds.
pub(super) fn text(path: &Path) -> Result<String, SettingsError> {
    let unread = |error| SettingsError::unread(path, &error);
    // What is no file, such as a pipe, may never end.
    if !fs::metadata(path).map_err(unread)?.is_file() {
        return Err(unread(io::Error::other("is no file")));
    }
    fs::read_to_string(path).map_err(unread)
}
