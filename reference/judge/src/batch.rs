//! Request 7 of document 02: the files of a buffer, each as a single call
//! with the program's rows and marks and output enough answers it.

use crate::{
    choice::Choice,
    frame::Frame,
    program::{self, Widths},
    reader::Reading,
    refusal::{Refusal, refusal},
};

/// The files that a buffer may hold.
pub const MOST_FILES: usize = 256;
/// The numbers of the table for each of them.
pub const ROW: usize = 3;

/// Why a frame is at fault.
#[derive(Clone, Copy, Debug, PartialEq, Eq, PartialOrd, Ord)]
pub enum Cause {
    TooMany,
    HeadCutOff,
    SourcePastEnd,
    ImagePastEnd,
}

impl Cause {
    pub const ALL: [(Cause, &str); 4] = [
        (Cause::TooMany, "257th frame"),
        (Cause::HeadCutOff, "head cut off"),
        (Cause::SourcePastEnd, "source past the buffer"),
        (Cause::ImagePastEnd, "image past the buffer"),
    ];

    pub fn name(self) -> &'static str {
        let known = Cause::ALL.into_iter().find(|(known, _)| *known == self);
        known.expect("all are listed").1
    }
}

/// The first frame at fault, by its offset.
#[derive(Clone, Copy, Debug, PartialEq, Eq)]
pub struct Fault {
    pub cause: Cause,
    pub place: usize,
}

/// The files of a buffer.
pub fn split(buffer: &[u8]) -> Result<Vec<Frame<'_>>, Fault> {
    let mut files = Vec::new();
    let mut rest = buffer;
    while !rest.is_empty() {
        let place = buffer.len() - rest.len();
        if files.len() == MOST_FILES {
            let cause = Cause::TooMany;
            return Err(Fault { cause, place });
        }
        let (file, behind) =
            first(rest).map_err(|cause| Fault { cause, place })?;
        files.push(file);
        rest = behind;
    }
    Ok(files)
}

/// The file that these bytes start with, and what stands behind it.
fn first(bytes: &[u8]) -> Result<(Frame<'_>, &[u8]), Cause> {
    let (head, rest) =
        bytes.split_first_chunk::<8>().ok_or(Cause::HeadCutOff)?;
    let both = u64::from_be_bytes(*head);
    let [source, image] = [both >> 32, both % (1 << 32)];
    let (source, rest) = rest
        .split_at_checked(source as usize)
        .ok_or(Cause::SourcePastEnd)?;
    let (image, rest) = rest
        .split_at_checked(image as usize)
        .ok_or(Cause::ImagePastEnd)?;
    Ok((Frame { source, image }, rest))
}

/// A file's text, or what refuses it: 20, 1 to 7, 12, 15, 8, 9.
pub fn single(file: Frame, choice: Choice) -> Result<String, Refusal> {
    single_by(file, choice, Reading::Strict)
}

/// The same of an image that is read otherwise.
pub fn single_by(
    file: Frame,
    choice: Choice,
    reading: Reading,
) -> Result<String, Refusal> {
    let run = program::format_by(file, Widths::Supplied, choice, reading)?;
    program::has_rows(&run).map(|()| run.text)
}

/// What the files give, one after the other.
#[derive(Clone, Debug, Default, PartialEq, Eq)]
pub struct Batched {
    /// For each file a refusal's number and place, or 0 and 0, and the bytes
    /// of its text.
    pub table: Vec<u32>,
    pub texts: Vec<u8>,
}

impl Batched {
    pub fn files(&self) -> usize {
        self.table.len() / ROW
    }

    fn add(&mut self, answer: Result<String, Refusal>) {
        let text = answer.as_deref().unwrap_or_default();
        let bytes = text.len() as u64;
        let row = match &answer {
            Ok(_) => [0, 0, bytes],
            Err(refusal) => [refusal.number.into(), refusal.place, 0],
        };
        self.texts.extend(text.as_bytes());
        let fits = |number| u32::try_from(number).expect("four bytes");
        self.table.extend(row.map(fits));
    }

    /// Whether all have room in so many numbers of table and bytes of output:
    /// if not, 19.
    pub fn has_room(&self, cells: usize, room: usize) -> Result<(), Refusal> {
        let needed = [(self.table.len(), cells), (self.texts.len(), room)];
        match needed.into_iter().find(|(needed, lent)| needed > lent) {
            Some((needed, _)) => Err(refusal(19, needed)),
            None => Ok(()),
        }
    }
}

/// The batch, where so many numbers of table and bytes of output are lent:
/// refusals 18, then 19.
pub fn batch(
    buffer: &[u8],
    choice: Choice,
    cells: usize,
    room: usize,
) -> Result<Batched, Refusal> {
    let files = split(buffer).map_err(|fault| refusal(18, fault.place))?;
    let mut batched = Batched::default();
    for file in files {
        batched.add(single(file, choice));
    }
    batched.has_room(cells, room).map(|()| batched)
}
