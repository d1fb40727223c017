//! Request 5 of document 02: images written from lists of steps, and the
//! steps of an image.

mod list;
mod of_image;
mod writer;

pub use list::{Step, joined, split};
pub use of_image::{of_image, of_read, of_record};
pub use writer::{Cause, Contents, Fault, follow, follow_by};

use crate::{
    image,
    reader::{HEADER, MOST_BODY},
    refusal::{Refusal, refusal},
};

/// The image that a list of steps gives, where so many bytes are lent for
/// it: refusals 16, then 17.
pub fn write(list: &[u8], room: usize) -> Result<Vec<u8>, Refusal> {
    let contents = follow(list).map_err(|fault| refusal(16, fault.place))?;
    let image = image::write(&contents.comments, &contents.tree);
    let most = room.min(HEADER + MOST_BODY);
    if image.len() > most {
        return Err(refusal(17, image.len()));
    }
    Ok(image)
}

/// The bytes of an image's steps, where so many are lent for them: refusals
/// 1 to 7, then 17.
pub fn read(
    source: &[u8],
    image: &[u8],
    room: usize,
) -> Result<Vec<u8>, Refusal> {
    let list = joined(&of_image(source, image)?);
    if list.len() > room {
        return Err(refusal(17, list.len()));
    }
    Ok(list)
}
