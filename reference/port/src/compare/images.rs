//! Images to steps and back.

use judge::{frame::Frame, random::Random, steps};

use super::{Tally, files, rooms};

/// The image of a generated frame of any class: its steps, or what refuses
/// it, and the image that the steps give.
pub fn compare(tally: &mut Tally, seed: u64, index: u64) {
    let mut random = Random::new(104, seed, index);
    let file = files::file(&mut random, seed);
    compare_image(tally, file.class(), &file.name, file.frame());
}

/// The same of any frame.
pub(super) fn compare_image(
    tally: &mut Tally,
    class: &str,
    name: &str,
    frame: Frame,
) {
    let Frame { source, image } = frame;
    let due = steps::read(source, image, usize::MAX);
    let number = due.as_ref().err().map_or(0, |refusal| refusal.number);
    tally.count(&format!("images to steps, {class}"), number);
    let what = format!("steps of {name}");
    rooms::compare(tally, &what, &due, |output| {
        crate::steps(source, image, output)
    });
    if let Ok(list) = due {
        let what = format!("image from the steps of {name}");
        let back = Ok(image.to_vec());
        rooms::compare(tally, &what, &back, |output| {
            crate::write(&list, output)
        });
    }
}
