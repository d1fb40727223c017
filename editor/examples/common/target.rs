//! A file that a text goes to: what it holds, and how it is replaced so that
//! nothing of anybody's is lost.

use std::{
    fs::{self, File, Metadata, OpenOptions},
    io::{self, Read, Write},
    os::unix::fs::{MetadataExt, OpenOptionsExt, fchown},
    path::{Path, PathBuf},
    process,
};

use super::shown::shown;

/// For its owner alone, until the new file has the mode of the old one.
const PRIVATE: u32 = 0o600;
/// What a new file may be, but for what the user's mask takes away.
const SHARED: u32 = 0o666;

/// A target as it was found.
pub struct Target {
    /// As it is named.
    path: PathBuf,
    /// The file itself, where the name is a link.
    real: PathBuf,
    /// What it holds, if it is there.
    found: Option<Found>,
}

struct Found {
    bytes: Vec<u8>,
    about: Metadata,
}

/// Whether a target was replaced.
#[derive(Debug, PartialEq, Eq)]
pub enum Put {
    Replaced,
    /// It is no longer as it was found.
    LeftAlone,
}

impl Target {
    /// Fails where there is something that isn't a file to be read: then
    /// nothing may be put there.
    pub fn read(path: &Path) -> io::Result<Self> {
        let mut target = Target {
            path: path.to_owned(),
            real: path.to_owned(),
            found: None,
        };
        match fs::symlink_metadata(path) {
            Err(error) if error.kind() == io::ErrorKind::NotFound => {
                return Ok(target);
            }
            Err(error) => return Err(error),
            Ok(about) if about.is_symlink() => {
                target.real = fs::canonicalize(path).map_err(|error| {
                    but("a link that leads nowhere", error)
                })?;
            }
            Ok(_) => {}
        }
        target.found = Some(Found::read(&target.real)?);
        Ok(target)
    }

    /// As it is named.
    pub fn path(&self) -> &Path {
        &self.path
    }

    /// What it holds; nothing if it isn't there.
    pub fn held(&self) -> Option<&[u8]> {
        self.found.as_ref().map(|found| &found.bytes[..])
    }

    /// To replace a file takes no right to write to it, so its own mode is
    /// looked at.
    pub fn may_be_replaced(&self) -> io::Result<()> {
        match &self.found {
            Some(found) if found.about.permissions().readonly() => {
                Err(io::Error::other("is read-only"))
            }
            _ => Ok(()),
        }
    }

    /// Written beside it first and then renamed, so that it is never half a
    /// file. Its mode and owner are kept, a link stays a link, and whoever
    /// changes it meanwhile is not overwritten.
    pub fn replace(&self, text: &[u8]) -> io::Result<Put> {
        let name = format!(".rrufthim-{}.new", process::id());
        let beside = self.real.with_file_name(name);
        let mode = if self.found.is_some() {
            PRIVATE
        } else {
            SHARED
        };
        let file = OpenOptions::new()
            .write(true)
            .create_new(true)
            .mode(mode)
            .open(&beside)
            .map_err(|error| but(&shown(&beside), error))?;
        let done = self.fill(file, text).and_then(|()| self.swap(&beside));
        match done {
            Ok(Put::Replaced) => done,
            _ => remove(&beside, done),
        }
    }

    /// The text, with owner and mode of the file that it replaces.
    fn fill(&self, mut file: File, text: &[u8]) -> io::Result<()> {
        file.write_all(text)?;
        if let Some(Found { about, .. }) = &self.found {
            let made = file.metadata()?;
            let owner = (about.uid(), about.gid());
            if (made.uid(), made.gid()) != owner {
                fchown(&file, Some(owner.0), Some(owner.1))
                    .map_err(|error| but("its owner can't be kept", error))?;
            }
            // Behind the owner, whose change can take bits away.
            file.set_permissions(about.permissions())?;
        }
        file.sync_all()
    }

    /// Puts what stands beside it in its place, if that is as it was found.
    fn swap(&self, beside: &Path) -> io::Result<Put> {
        let now = Target::read(&self.path)?;
        if now.real != self.real || now.held() != self.held() {
            return Ok(Put::LeftAlone);
        }
        fs::rename(beside, &self.real)?;
        Ok(Put::Replaced)
    }
}

impl Found {
    fn read(path: &Path) -> io::Result<Self> {
        // What is no file, such as a pipe, may never end.
        if !fs::metadata(path)?.is_file() {
            return Err(io::Error::other("is there, and is no file"));
        }
        let mut file = File::open(path)?;
        let mut bytes = Vec::new();
        file.read_to_end(&mut bytes)?;
        let about = file.metadata()?;
        Ok(Found { bytes, about })
    }
}

/// Takes away what wasn't put in its place.
fn remove(beside: &Path, done: io::Result<Put>) -> io::Result<Put> {
    let Err(error) = fs::remove_file(beside) else {
        return done;
    };
    let words = format!("{} stays behind ({error})", shown(beside));
    Err(match done {
        Ok(_) => io::Error::new(error.kind(), words),
        Err(first) => but(&words, first),
    })
}

fn but(what: &str, error: io::Error) -> io::Error {
    io::Error::new(error.kind(), format!("{what}: {error}"))
}
