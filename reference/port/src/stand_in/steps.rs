//! The writer of images from steps, and the steps of an image.

use judge::{
    calls::Given,
    reader::{self, HEADER, MOST_BODY, Reading, Version},
    refusal::{Refusal, refusal},
    steps::{self, Cause, Contents, Step},
};

use super::{
    Fault,
    moves::with_steps,
    orders::{self, Entry},
    planted, put, put_refusal,
};

/// An image from steps.
pub fn write(steps: &[u8], output: &mut [u8], out: &mut [u64; 2]) {
    let room = output.len();
    let written = match orders::follow(steps) {
        Err(fault) => Err(spoiled(steps, fault, room)),
        Ok(contents) => image_in(&contents, room),
    };
    match written {
        Ok(mut image) => {
            spoil_last(&mut image, Fault::ImageByte);
            put_bytes(output, &image, out);
            if planted(Fault::PastImage)
                && let Some(byte) = output.get_mut(image.len())
            {
                *byte = 0;
            }
        }
        Err(mut refused) if refused.number == 17 => {
            refused.place += u64::from(planted(Fault::ImageNeeded));
            begin(output, Fault::ImageBeforeRefusal);
            put_refusal(out, refused);
        }
        Err(refused) => put_refusal(out, refused),
    }
}

/// The refusal by 16, or what a fault makes of it.
fn spoiled(list: &[u8], fault: steps::Fault, room: usize) -> Refusal {
    let late = match fault.cause {
        Cause::TooDeep => planted(Fault::LateDepth),
        Cause::TextNotUtf8 => planted(Fault::LateText),
        Cause::CommentEmpty => planted(Fault::LateEmptyComment),
        Cause::CommentUnordered => planted(Fault::LateUnordered),
        _ => false,
    };
    let mut place = fault.place;
    if late && let Ok((_, length)) = Step::first(&list[place..]) {
        place += length;
    }
    if planted(Fault::ListEnd) && fault.cause == Cause::ListEnds {
        place = place.saturating_sub(1);
    }
    place += usize::from(planted(Fault::StepPlace));
    match planted(Fault::RoomFirst) && room == 0 {
        true => refusal(17, place),
        false => refusal(16, place),
    }
}

/// The image where there is room, or 17.
fn image_in(contents: &Contents, room: usize) -> Result<Vec<u8>, Refusal> {
    let image = judge::image::write(&contents.comments, &contents.tree);
    let most = match planted(Fault::AnyBody) {
        true => room,
        false => room.min(HEADER + MOST_BODY),
    };
    match image.len() <= most {
        true => Ok(image),
        false => Err(refusal(17, image.len())),
    }
}

/// The steps of an image.
pub fn steps(
    source: &[u8],
    image: &[u8],
    output: &mut [u8],
    out: &mut [u64; 2],
) {
    if planted(Fault::StepsRoomFirst) && output.is_empty() {
        return put_refusal(out, refusal(17, image.len()));
    }
    let image = with_steps(source, image);
    let given = Given {
        source,
        image: &image,
    };
    let room = output.len();
    let read = orders::strict(Entry::Steps, given, |reading| {
        list_of(given, room, reading)
    });
    match read {
        Ok(mut list) => {
            spoil_last(&mut list, Fault::StepByte);
            put_bytes(output, &list, out);
        }
        Err(mut refused) => {
            if refused.number == 17 {
                refused.place += u64::from(planted(Fault::StepsNeeded));
                begin(output, Fault::StepsBeforeRefusal);
            }
            put_refusal(out, refused);
        }
    }
}

/// The list of an image's steps where there is room, or 17.
fn list_of(
    given: Given,
    room: usize,
    reading: Reading,
) -> Result<Vec<u8>, Refusal> {
    let Given { source, image } = given;
    let one = Version::One;
    let read = reader::read_version(source, image, one, reading)?;
    let list = steps::joined(&steps::of_read(&read));
    match list.len() <= room {
        true => Ok(list),
        false => Err(refusal(17, list.len())),
    }
}

fn put_bytes(output: &mut [u8], bytes: &[u8], out: &mut [u64; 2]) {
    output[..bytes.len()].copy_from_slice(bytes);
    put(out, &[0, bytes.len() as u64]);
}

fn spoil_last(bytes: &mut [u8], fault: Fault) {
    if planted(fault)
        && let Some(byte) = bytes.last_mut()
    {
        *byte ^= 1;
    }
}

fn begin(output: &mut [u8], fault: Fault) {
    if planted(fault)
        && let Some(byte) = output.first_mut()
    {
        *byte = 1;
    }
}
