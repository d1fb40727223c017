//! The editor's builder beside the judge: what the encoder writes goes to
//! steps and back, and each list of steps ends where the judge says.

use editor::decode;
use judge::{
    frame::{self, Frame},
    generate::{self, Class},
    reader,
    refusal::Refusal as Due,
    steps,
};
use rrufthim::{
    Cause, File, Refusal, encode_written,
    generator::{self, Builder, Step},
    write_tree,
};

const SEED: u64 = 11;
const FRAMES: u64 = 2_000;
const LISTS: u64 = 6_000;

/// The image that the encoder writes for an accepted frame.
fn encoded(frame: Frame) -> Option<Vec<u8>> {
    let accepted = reader::read(frame.source, frame.image).ok()?;
    let mut file = decode(&accepted);
    let widths = &mut file.widths;
    let width = |_: &str| widths.pop_front().expect("one for each text");
    let (tree, comments) = (&file.tree, &file.extras.comments);
    encode_written(|out| write_tree(out, tree, comments, width)).ok()
}

/// The image that a builder gives for these steps.
fn built(steps: &[Step]) -> Result<Vec<u8>, Refusal> {
    let mut builder = Builder::new();
    for step in steps {
        builder.step(step)?;
    }
    builder.finish()
}

/// Byte for byte, for the encoder's images and for those of the frames.
#[test]
fn encoded_images_there_and_back() {
    let classes = [Class::Realistic, Class::Wild, Class::Edges];
    let mut tried = 0;
    for class in classes {
        for bytes in generate::frames(class, SEED, FRAMES) {
            let frame = frame::split_any_size(&bytes).expect("a frame");
            // Steps are of lists in order.
            let Some(encoded) = encoded(frame) else {
                continue;
            };
            tried += 1;
            for image in [&encoded[..], frame.image] {
                let file = File::new(frame.source, image);
                let steps = generator::steps(file);
                let steps = steps.expect("accepted");
                assert!(built(&steps).as_deref() == Ok(image));
            }
        }
    }
    assert!(tried > 5_000, "{tried}");
}

/// The steps of an image in the judge's bytes.
#[test]
fn steps_are_the_judges() {
    for (class, name) in Class::ALL {
        let count = if class == Class::Sizes { 32 } else { 300 };
        for bytes in generate::frames(class, SEED, count) {
            let Ok(frame) = frame::split_any_size(&bytes) else {
                continue;
            };
            let Frame { source, image } = frame;
            let due = steps::read(source, image, usize::MAX);
            let got = generator::steps(File::new(source, image));
            match (due, got) {
                (Ok(list), Ok(steps)) => {
                    assert!(generator::read(&list) == Ok(steps), "{name}");
                }
                (Err(due), Err(got)) => {
                    let Cause::Refused(got) = got.cause else {
                        panic!("{name}: {got}");
                    };
                    assert_eq!(numbers(&got), due);
                }
                (due, got) => panic!("{name}: {due:?} and {got:?}"),
            }
        }
    }
}

fn numbers(refusal: &Refusal) -> Due {
    Due {
        number: refusal.number() as u8,
        place: refusal.place() as u64,
    }
}

/// A builder that is given the steps of a list one by one stops at the step
/// that the judge names, or takes it and leaves it to the writer.
#[test]
fn lists_end_where_the_judge_says() {
    let [mut written, mut early, mut late] = [0, 0, 0];
    for index in 0..LISTS {
        let list = generate::step_list(SEED, index);
        // Unknown steps, and those cut off, can't be given to a builder.
        let Ok(steps) = generator::read(&list) else {
            continue;
        };
        let due = steps::write(&list, usize::MAX);
        let mut builder = Builder::new();
        let stopped = steps.iter().find_map(|step| builder.step(step).err());
        if let Some(refusal) = stopped {
            early += 1;
            assert_eq!(Err(numbers(&refusal)), due);
            continue;
        }
        assert_eq!(builder.list(), list);
        let got = builder.finish().map_err(|refusal| numbers(&refusal));
        match got.is_ok() {
            true => written += 1,
            false => late += 1,
        }
        assert!(got == due);
    }
    let reached = written > 500 && early > 500 && late > 500;
    assert!(reached, "{written}, {early}, {late}");
}

/// The words for the step that the judge names don't call it due, unless they
/// say what else is wrong with it.
#[test]
fn wrong_steps_are_explained() {
    let (mut by_sort, mut by_fault, mut at_end) = (0, 0, 0);
    for index in 0..LISTS {
        let list = generate::step_list(SEED, index);
        let due = steps::write(&list, usize::MAX);
        let Some(at) = due.err().filter(|it| it.number == 16) else {
            continue;
        };
        let explained = generator::explain(&list, at.place as usize);
        assert_eq!(explained.at as u64, at.place, "{index}");
        match (&explained.step, explained.fault) {
            (None, _) => at_end += 1,
            (Some(_), Some(_)) => by_fault += 1,
            (Some(step), None) => {
                by_sort += 1;
                assert!(!is_due(&explained.due, step), "{explained}");
            }
        }
    }
    let reached = by_sort > 500 && by_fault > 50 && at_end > 50;
    assert!(reached, "{by_sort}, {by_fault}, {at_end}");
}

fn is_due(due: &generator::Due, step: &Step) -> bool {
    match step {
        Step::Comment { .. } => due.comment,
        Step::Open { kind, .. } => due.kinds.contains(kind),
        Step::Text { .. } => due.text,
        Step::Payload(_) => due.payload.is_some(),
        Step::Absent => due.absent,
        Step::Close => due.close,
    }
}
