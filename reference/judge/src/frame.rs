//! The program's frame: four bytes source length, source, image.

use crate::refusal::{Refusal, refusal};

pub const MOST_BYTES: usize = 32_768;

/// Source and image, neither checked yet.
#[derive(Clone, Copy, Debug)]
pub struct Frame<'a> {
    pub source: &'a [u8],
    pub image: &'a [u8],
}

/// Takes a frame apart; refusal 13.
pub fn split(bytes: &[u8]) -> Result<Frame<'_>, Refusal> {
    if bytes.len() > MOST_BYTES {
        return Err(refusal(13, 0));
    }
    split_any_size(bytes)
}

/// As [`split`], for a caller without the program's limit.
pub fn split_any_size(bytes: &[u8]) -> Result<Frame<'_>, Refusal> {
    let (length, rest) =
        bytes.split_first_chunk::<4>().ok_or(refusal(13, 0))?;
    let (source, image) = rest
        .split_at_checked(u32::from_be_bytes(*length) as usize)
        .ok_or(refusal(13, 0))?;
    Ok(Frame { source, image })
}

/// Puts a frame together.
pub fn join(source: &[u8], image: &[u8]) -> Vec<u8> {
    [&led(source), image].concat()
}

/// A file as the report and the batch read it: two lengths, then source and
/// image.
pub fn framed(frame: Frame) -> Vec<u8> {
    let Frame { source, image } = frame;
    let [source_length, image_length] = [source, image].map(|bytes| {
        u32::try_from(bytes.len())
            .expect("four bytes")
            .to_be_bytes()
    });
    [&source_length, &image_length, source, image].concat()
}

/// Bytes led by their number, as a source is in its frame and frames are in
/// a stream.
pub fn led(bytes: &[u8]) -> Vec<u8> {
    let length = u32::try_from(bytes.len()).expect("under 4 GiB");
    [&length.to_be_bytes(), bytes].concat()
}
