//! Files counted: one after another, again in another order, and each on top
//! of tallies of all sorts.

use judge::{
    calls::Given,
    choice::Choice,
    figures::{self, Counted, Figures, MOST_FILES, MOST_TALLY, Tallies},
    frame::{self, Frame},
    generate::{self, Class},
    random::Random,
    refusal::Refusal,
};

use super::{Tally, buffers::junk_bytes, texts, work::class_name};

/// One of the generated frames, and what repeats it.
pub(super) struct File {
    pub(super) name: String,
    bytes: Vec<u8>,
}

impl File {
    pub(super) fn class(&self) -> &str {
        self.name.split(' ').next().unwrap_or_default()
    }

    pub(super) fn frame(&self) -> Frame<'_> {
        frame::split_any_size(&self.bytes).expect("chosen so")
    }
}

/// Compares all figures, tallies and fractions of so many files.
pub fn compare(tally: &mut Tally, seed: u64, count: u64) {
    let random = &mut Random::new(102, seed, count);
    let mut files: Vec<File> =
        (0..count).map(|_| file(random, seed)).collect();
    for file in &files {
        let before = tallies(random);
        let heading = "files, tallies of all sorts";
        let (name, frame) = (&file.name, file.frame());
        let counted = count_one(tally, heading, name, frame, &before);
        if let Ok(counted) = counted {
            expect_text(tally, file, counted.figures);
        }
    }
    // What comes after the last file that is counted depends on the order.
    let mut numbers = Vec::new();
    let totals = in_a_row(tally, "files in a row", &files, &mut numbers);
    let mut numbers = numbers.into_iter();
    files.retain(|_| numbers.next() != Some(14));
    shuffle(random, &mut files);
    let heading = "the same in another order";
    let again = in_a_row(tally, heading, &files, &mut Vec::new());
    tally.expect("totals in another order", &totals, &again);
}

/// Counts files from fresh tallies on, as the port answers them, and says
/// what refused each.
fn in_a_row(
    tally: &mut Tally,
    heading: &str,
    files: &[File],
    numbers: &mut Vec<u8>,
) -> Tallies {
    let mut before = Tallies::default();
    for file in files {
        let (name, frame) = (&file.name, file.frame());
        let answer = count_one(tally, heading, name, frame, &before);
        numbers.push(answer.err().map_or(0, |refusal| refusal.number));
        before = answer.map_or(before, |counted| counted.tallies);
    }
    before
}

/// The port's text of a counted file, by the comments that its figures say
/// are left.
fn expect_text(tally: &mut Tally, file: &File, figures: Figures) {
    let Frame { source, image } = file.frame();
    let choice = Choice::REFERENCE;
    let mut output = junk_bytes(figures.bytes as usize);
    let given = Given { source, image };
    let got = crate::format(given, choice, &mut output);
    let bytes = got.map(|formatted| formatted.bytes);
    let what = format!("the bytes of {}", file.name);
    tally.expect(&what, &Ok(figures.bytes), &bytes);
    if let (Ok(bytes), Some(contents)) =
        (bytes, texts::contents(file.frame()))
    {
        let text = &output[..output.len().min(bytes as usize)];
        let left = (choice.mode, figures.left as usize);
        texts::expect_file(tally, texts::COUNTED, &contents, left, text);
    }
}

/// Both sides on one file; the port's answer.
pub(super) fn count_one(
    tally: &mut Tally,
    heading: &str,
    name: &str,
    frame: Frame,
    before: &Tallies,
) -> Result<Counted, Refusal> {
    let Frame { source, image } = frame;
    let due = figures::count(frame, before);
    tally.count(heading, due.err().map_or(0, |refusal| refusal.number));
    let got = crate::count(Given { source, image }, before);
    tally.expect(&format!("{heading}, {name}"), &due, &got);
    got
}

/// A frame of any class or of version 2; of the sizes, which are large, few. 13
/// isn't for files.
pub(super) fn file(random: &mut Random, seed: u64) -> File {
    loop {
        let index = random.below(1 << 20) as u64;
        let class = match random.below(100) {
            40 | 41 => {
                let name = format!("two {seed} {index}");
                let bytes = generate::two_frame(seed, index);
                return File { name, bytes };
            }
            0 => Class::Sizes,
            1..15 => Class::Damaged,
            15..40 => Class::Wild,
            40..70 => Class::Edges,
            _ => Class::Realistic,
        };
        let bytes = generate::frame(class, seed, index);
        if frame::split_any_size(&bytes).is_ok() {
            let name = format!("{} {seed} {index}", class_name(class));
            return File { name, bytes };
        }
    }
}

/// Tallies that most files are counted on top of, or with one of them near
/// its bound or far past it.
fn tallies(random: &mut Random) -> Tallies {
    let mut all = [0; 7].map(|_: u64| random.below(1 << 20) as u64);
    // No more wrapped than given, and now and then as many.
    all[4] = all[4].min(all[3]);
    let mut files = random.below(MOST_FILES as usize) as u64;
    let place = random.below(16);
    match place {
        0..7 => all[place] = near(random, MOST_TALLY),
        7 => all[4] = near(random, all[3]),
        8 | 9 => files = near(random, MOST_FILES),
        10 => all[3..5].fill(near(random, MOST_TALLY)),
        11 => all[3..5].fill(0),
        _ => {}
    }
    let all = Figures::from_numbers(all);
    Tallies { files, all }
}

/// A number about this one, or far past it.
fn near(random: &mut Random, bound: u64) -> u64 {
    let far = [1 << 40, 1 << 63, u64::MAX];
    match random.below(6) {
        place @ 0..3 => bound.wrapping_add(place as u64).wrapping_sub(1),
        3 => bound / 2,
        4 => bound,
        _ => *random.pick(&far),
    }
}

fn shuffle(random: &mut Random, files: &mut [File]) {
    for last in (1..files.len()).rev() {
        files.swap(last, random.below(last + 1));
    }
}
