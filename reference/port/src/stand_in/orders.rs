//! The order of comments: the judge's entries, wrong where a fault on it is
//! planted.

use std::{ops::Range, sync::atomic::Ordering};

use judge::{
    calls::{Answer, Given, LayoutArgs, World},
    image::with_version,
    reader::{self, Accepted, HEADER, MOST_COMMENTS, Reading, Version},
    refusal::{Refusal, refusal},
    steps::{self, Cause, Contents, Step},
};

use super::{Fault, PLANTED, planted};

/// The offset of the first pair, the bytes of each, and those of its step.
const FIRST: usize = HEADER + 2;
const PAIR: usize = 8;
const STEP: usize = 9;

/// An entry that is strict.
#[derive(Clone, Copy, Debug, PartialEq, Eq)]
pub enum Entry {
    Check,
    Layout,
    Whole,
    Count,
    Batch,
    Steps,
}

impl Entry {
    /// That it reads by the earlier rule.
    fn earlier(self) -> Fault {
        match self {
            Entry::Check => Fault::CheckEarlier,
            Entry::Layout => Fault::LayoutEarlier,
            Entry::Whole => Fault::WholeEarlier,
            Entry::Count => Fault::CountEarlier,
            Entry::Batch => Fault::BatchEarlier,
            Entry::Steps => Fault::StepsEarlier,
        }
    }
}

/// Whether a fault on the order is planted.
fn spoils() -> bool {
    PLANTED.load(Ordering::Relaxed) >= Fault::OrderForgotten as u8
}

/// What a strict entry answers, where it answers so by a reading.
pub fn strict<T>(
    entry: Entry,
    given: Given,
    mut answer: impl FnMut(Reading) -> Result<T, Refusal>,
) -> Result<T, Refusal> {
    if spoils() && planted(entry.earlier()) {
        return answer(Reading::Earlier);
    }
    let right = answer(Reading::Strict);
    let Given { source, image } = given;
    let before = match &right {
        Err(early) => matches!(early.number, 1 | 2 | 3 | 20),
        Ok(_) => false,
    };
    if !spoils() || before {
        return right;
    }
    let believed = reader::read_by(source, image, Reading::Believing);
    let Ok(read) = believed else {
        return right;
    };
    let due = match &right {
        Err(Refusal { number: 7, place }) => Some(*place as usize),
        _ => None,
    };
    match pair_at_fault(&read) {
        found if found == due => right,
        Some(place) => Err(refusal(7, place)),
        None => answer(Reading::Earlier),
    }
}

/// The offset of the pair that 7 names, wrong where a fault is planted.
fn pair_at_fault(read: &Accepted) -> Option<usize> {
    let comments = &read.comments;
    let is_range = |place: &usize| {
        let comment = comments[*place].clone();
        !comment.is_empty() && read.source.get(comment).is_some()
    };
    let in_order = |place: &usize| {
        let (before, rest) = comments.split_at(*place);
        comes_after(READER, before, &rest[0])
    };
    let all = 0..comments.len();
    let first_unordered = all.clone().find(|place| !in_order(place));
    let first_bad = all.clone().find(|place| !is_range(place));
    let found = if planted(Fault::OrderLast) {
        first_bad.or(first_unordered)
    } else if planted(Fault::OrderFirst) {
        first_unordered.or(first_bad)
    } else {
        [first_unordered, first_bad].into_iter().flatten().min()
    }?;
    let by_order = first_bad.is_none_or(|bad| found < bad);
    let shift = planted(Fault::OrderPlace) && by_order;
    Some(FIRST + PAIR * found - if shift { PAIR } else { 0 })
}

/// Faults of a comparison with the comment before.
struct Comparison {
    forgets: Fault,
    equality: Fault,
    starts: Fault,
    overlap: Fault,
    first: Fault,
}

const READER: Comparison = Comparison {
    forgets: Fault::OrderForgotten,
    equality: Fault::EqualityRefused,
    starts: Fault::StartsCompared,
    overlap: Fault::OverlapByOne,
    first: Fault::FirstOrdered,
};

const WRITER: Comparison = Comparison {
    forgets: Fault::WriterForgets,
    equality: Fault::WriterEquality,
    starts: Fault::WriterStarts,
    overlap: Fault::WriterOverlap,
    first: Fault::WriterFirst,
};

/// Whether a comment comes after those before it.
fn comes_after(
    of: Comparison,
    before: &[Range<usize>],
    comment: &Range<usize>,
) -> bool {
    let Some(last) = before.last() else {
        return !(planted(of.first) && comment.start == 0);
    };
    let least = if planted(of.equality) {
        last.end + 1
    } else if planted(of.starts) {
        last.start
    } else if planted(of.overlap) {
        last.end.saturating_sub(1)
    } else {
        last.end
    };
    let forgotten = planted(of.forgets) && before.len() + 1 == MOST_COMMENTS;
    comment.start >= least || forgotten
}

type Answered = Result<Answer, Refusal>;

/// A layout call at its entry, where `call` makes it at either.
pub fn layout(
    given: Given,
    world: &mut World,
    args: LayoutArgs,
    call: impl Fn(Given, &mut World, LayoutArgs) -> Answered,
) -> Answered {
    let before = world.clone();
    let mut by = |given: Given<'_>, reading| {
        *world = before.clone();
        let archive = reading == Reading::Earlier;
        call(given, world, LayoutArgs { archive, ..args })
    };
    if args.archive {
        return archived(given, by);
    }
    let carried = planted(Fault::EntryCarried) && before.laying.begun;
    if carried {
        return by(given, Reading::Earlier);
    }
    let earlier = by(given, Reading::Earlier).err().map(|late| late.number);
    let answer = strict(Entry::Layout, given, |reading| by(given, reading));
    match (earlier, &answer) {
        (Some(12), Err(Refusal { number: 7, .. }))
            if planted(Fault::OrderAfterState) =>
        {
            Err(refusal(12, 0))
        }
        (_, Err(Refusal { number: 20, .. }))
            if planted(Fault::OrderBeforeRule) =>
        {
            let Given { source, image } = given;
            reader::read(source, image).and(answer)
        }
        _ => answer,
    }
}

/// A layout call at the entry for archived images.
fn archived(
    given: Given,
    mut by: impl FnMut(Given, Reading) -> Answered,
) -> Answered {
    let Given { source, image } = given;
    let right = by(given, Reading::Earlier);
    if planted(Fault::ArchiveStrict) {
        return by(given, Reading::Strict);
    }
    let other = match &right {
        Err(Refusal { number: 7, place })
            if planted(Fault::ArchiveUntested) =>
        {
            without_pair(image, *place as usize)
        }
        Ok(_) if planted(Fault::ArchiveSorted) => sorted(source, image),
        _ => None,
    };
    match other {
        Some(image) => {
            let image = &image[..];
            by(Given { source, image }, Reading::Earlier)
        }
        None => right,
    }
}

/// The image without the pair at a place, if one stands there.
fn without_pair(image: &[u8], place: usize) -> Option<Vec<u8>> {
    let (list, behind) = image.split_at_checked(place)?;
    let (_, behind) = behind.split_at_checked(PAIR)?;
    let [_, count @ ..] = list.get(HEADER - 1..FIRST)? else {
        return None;
    };
    let count = u16::from_be_bytes(count.try_into().ok()?).checked_sub(1)?;
    let pairs = &list[FIRST..];
    let body = [&count.to_be_bytes(), pairs, behind].concat();
    Some(with_version(version(image), &body))
}

/// The image with its pairs by their numbers, if that is another one.
fn sorted(source: &[u8], image: &[u8]) -> Option<Vec<u8>> {
    let read = reader::read_by(source, image, Reading::Earlier).ok()?;
    let mut pairs: Vec<[usize; 2]> = read
        .comments
        .iter()
        .map(|one| [one.start, one.end])
        .collect();
    if pairs.is_sorted() {
        return None;
    }
    pairs.sort_unstable();
    let numbers = pairs.into_iter().flatten();
    let bytes = numbers.flat_map(|number| (number as u32).to_be_bytes());
    let mut image = image.to_vec();
    for (place, byte) in image[FIRST..].iter_mut().zip(bytes) {
        *place = byte;
    }
    Some(image)
}

fn version(image: &[u8]) -> Version {
    match image.first() {
        Some(2) => Version::Two,
        _ => Version::One,
    }
}

/// What a list of steps says, or its first step at fault.
pub fn follow(list: &[u8]) -> Result<Contents, steps::Fault> {
    if !spoils() {
        return steps::follow(list);
    }
    let earlier = steps::follow_by(list, Reading::Earlier);
    if planted(Fault::WriterUnordered) {
        return earlier;
    }
    let found = step_at_fault(list);
    let first = earlier.as_ref().err().map(|fault| fault.place);
    match found {
        Some(place) if first.is_none_or(|first| place < first) => {
            let cause = Cause::CommentUnordered;
            Err(steps::Fault { cause, place })
        }
        _ => earlier,
    }
}

/// The offset of the first step of a comment out of order, wrong where a fault
/// is planted.
fn step_at_fault(list: &[u8]) -> Option<usize> {
    let steps = steps::split(list).into_iter();
    let comments = steps.map_while(|step| match step {
        Step::Comment { start, end } => Some(start as usize..end as usize),
        _ => None,
    });
    let comments: Vec<Range<usize>> = comments.collect();
    let mut all = 0..comments.len();
    let found = all.find(|place| {
        let (before, rest) = comments.split_at(*place);
        !comes_after(WRITER, before, &rest[0])
    });
    found.map(|place| STEP * place)
}
