//! A frame: what an editor has at hand, a file's source and its tree. Four
//! bytes with the source's length, the source, the tree image.

use std::{fs, io, path::Path};

use rrufthim::File;

pub struct Frame {
    pub source: Vec<u8>,
    pub image: Vec<u8>,
}

impl Frame {
    pub fn read(path: &Path) -> io::Result<Self> {
        // What is no file, such as a pipe, may never end.
        if !fs::metadata(path)?.is_file() {
            return Err(io::Error::other("is no file"));
        }
        Frame::parts(&fs::read(path)?).map_err(io::Error::other)
    }

    pub fn file(&self) -> File<'_> {
        File::new(&self.source, &self.image)
    }

    fn parts(frame: &[u8]) -> Result<Self, &'static str> {
        let length = frame.split_first_chunk();
        let (length, rest) = length.ok_or("no frame: under four bytes")?;
        let length = u32::from_be_bytes(*length) as usize;
        let parts = rest.split_at_checked(length);
        let (source, image) = parts.ok_or("cut off within its source")?;
        Ok(Frame {
            source: source.to_vec(),
            image: image.to_vec(),
        })
    }
}
