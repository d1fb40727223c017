//! The files that paths name: frames, or Roto files.

use std::{
    collections::HashSet,
    fs, io,
    path::{Path, PathBuf},
};

use super::{order::Sought, report::Report};

/// Folders that hold no work of anybody's, by name or by what is in them.
const PASSED_OVER: [&str; 2] = [".git", "target"];
const CACHE_TAG: &str = "CACHEDIR.TAG";

/// The files among some paths and in the folders among them, each once, by
/// their names. Paths without any are named.
pub fn files(paths: &[PathBuf], report: &mut Report<'_>) -> Vec<PathBuf> {
    let sought = report.sought();
    let mut known = HashSet::new();
    let mut all = Vec::new();
    for path in paths {
        let (mut found, faults) = (Vec::new(), report.paths_failed());
        visit(path, sought, &mut found, report);
        if found.is_empty() && report.paths_failed() == faults {
            report.fail_path(path, &format!("no {} in it", sought.name));
        }
        all.extend(found.into_iter().filter(|one| known.insert(key(one))));
    }
    all
}

/// The same for two paths only if they name the same file, or the same frame
/// and target: the folder without links, and the name in it.
fn key(file: &Path) -> PathBuf {
    let folder = match file.parent() {
        Some(folder) if folder != Path::new("") => folder,
        _ => Path::new("."),
    };
    match (fs::canonicalize(folder), file.file_name()) {
        (Ok(folder), Some(name)) => folder.join(name),
        _ => file.to_owned(),
    }
}

/// A path that is named: a file, or a folder.
fn visit(
    path: &Path,
    sought: &Sought,
    found: &mut Vec<PathBuf>,
    report: &mut Report<'_>,
) {
    match fs::metadata(path) {
        Ok(known) if known.is_dir() => enter(path, sought, found, report),
        // What is wrong with it is said where it is read.
        _ if sought.any_named => found.push(path.to_owned()),
        Ok(_) if is_sought(path, sought) => found.push(path.to_owned()),
        Ok(_) => {
            let words =
                format!("its name doesn't end in .{}", sought.extension);
            report.fail_path(path, &words);
        }
        Err(error) => report.fail_path(path, &error.to_string()),
    }
}

/// The files of a folder. What can't be read is named, and the rest is
/// looked at all the same.
fn enter(
    folder: &Path,
    sought: &Sought,
    found: &mut Vec<PathBuf>,
    report: &mut Report<'_>,
) {
    let inner = match entries(folder) {
        Ok(inner) => inner,
        Err(error) => return report.fail_path(folder, &error.to_string()),
    };
    for path in inner {
        // A link to a folder may lead back here.
        if path.is_dir() {
            if !path.is_symlink() && !is_passed_over(&path) {
                enter(&path, sought, found, report);
            }
        } else if is_sought(&path, sought) {
            found.push(path);
        }
    }
}

fn entries(folder: &Path) -> io::Result<Vec<PathBuf>> {
    let inner = fs::read_dir(folder)?.map(|one| one.map(|one| one.path()));
    let mut inner = inner.collect::<io::Result<Vec<_>>>()?;
    inner.sort();
    Ok(inner)
}

fn is_sought(path: &Path, sought: &Sought) -> bool {
    path.extension()
        .is_some_and(|word| word == sought.extension)
}

fn is_passed_over(folder: &Path) -> bool {
    let named = |name: &str| folder.file_name().is_some_and(|it| it == name);
    PASSED_OVER.into_iter().any(named) || folder.join(CACHE_TAG).exists()
}
