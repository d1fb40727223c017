//! Rules of widths: the judge's calls, wrong where a fault on them is planted.

use std::sync::atomic::Ordering;

use judge::{
    calls::{
        Answer, Given, LayoutArgs, LayoutState, RenderArgs, World,
        layout_call, render_call,
    },
    driver::Texts,
    reader::{self, Reading},
    refusal::{Refusal, refusal},
    rows::{self, Row},
    rule::{self, SUPPLIED, UNICODE_15_1, UNICODE_16_0},
};

use super::{Fault, PLANTED, moves::two, planted, put, put_refusal};

type Answered = Result<Answer, Refusal>;

/// Whether a fault on rules is planted.
fn spoils() -> bool {
    let ours = Fault::OneRule as u8..=Fault::TwoWithWidths as u8;
    ours.contains(&PLANTED.load(Ordering::Relaxed))
}

/// What refuses a rule of a layout call or a whole file.
pub fn check(given: Given, rule: usize) -> Result<(), Refusal> {
    if planted(Fault::RuleLate) && rule::check(rule).is_err() {
        reader::read(given.source, given.image)?;
    }
    rule::check(looked_at(rule))
}

/// What refuses a rule of a whole file, with the first byte of its image.
pub fn check_whole(given: Given, rule: usize) -> Result<(), Refusal> {
    check(given, rule)?;
    let by = two(given, rule)?;
    match planted(Fault::TwoInWhole) || by != rule {
        true => Ok(()),
        false => rule::check_for(looked_at(rule), given.image),
    }
}

/// A rule as it is read.
fn looked_at(rule: usize) -> usize {
    let rule = match planted(Fault::RuleInFourBytes) {
        true => rule % (1 << 32),
        false => rule,
    };
    match rule {
        0 if planted(Fault::ZeroRule) => SUPPLIED,
        _ => rule,
    }
}

/// By which texts are measured; the rule is legal.
fn measured(rule: usize) -> usize {
    match rule {
        UNICODE_15_1 if planted(Fault::OtherEdition) => UNICODE_16_0,
        UNICODE_16_0 if planted(Fault::OtherEdition) => UNICODE_15_1,
        _ if planted(Fault::OneRule) => SUPPLIED,
        _ => rule,
    }
}

/// A layout call.
pub fn lay_out(
    given: Given,
    world: &mut World,
    args: LayoutArgs,
) -> Answered {
    if !spoils() {
        return layout_call(given, world, args);
    }
    check(given, args.rule)?;
    let rule = two(given, looked_at(args.rule))?;
    let before = world.clone();
    let laying = &mut world.laying;
    let forgets = planted(Fault::LayoutRuleNotKept) && laying.begun
        || planted(Fault::RuleBeforeBegun) && !laying.begun;
    if forgets {
        laying.rule = 0;
    }
    let carried = laying.rule;
    layout_call(given, world, LayoutArgs { rule, ..args })?;
    if planted(Fault::NoRuleRefused) && before.laying.begun && carried == 0 {
        return Err(refusal(12, 0));
    }
    let by = match planted(Fault::SuppliedKept) {
        true => SUPPLIED,
        false => measured(rule),
    };
    *world = before;
    world.laying.rule = 0;
    let fresh = !world.laying.begun;
    let answer = layout_call(given, world, LayoutArgs { rule: by, ..args })?;
    world.laying.rule = rule;
    if planted(Fault::ShebangUntrimmed) && fresh {
        widen_shebang(given, world, rule);
    }
    Ok(match answer {
        Answer::LaidOut { comments_left, .. } => Answer::LaidOut {
            state: LayoutState {
                rule,
                ..world.laying
            },
            comments_left,
        },
        other => other,
    })
}

/// The width of the whole of the shebang's text.
fn widen_shebang(given: Given, world: &mut World, rule: usize) {
    let Given { source, image } = given;
    let read = reader::read_by(source, image, Reading::Earlier);
    let read = read.expect("accepted");
    let shebang = read.tree.children[0].as_ref();
    let (Some(shebang), Some(edition)) = (shebang, rule::edition(rule))
    else {
        return;
    };
    if let reader::Payload::Text { text, .. } = shebang.payload {
        world.store[8] = edition.columns(text) as u32;
    }
}

/// A rendering call.
pub fn render(given: Given, world: &mut World, args: RenderArgs) -> Answered {
    if !spoils() {
        return render_call(given, world, args);
    }
    early(given, args.rule)?;
    let mut rule = two(given, looked_at(args.rule))?;
    if planted(Fault::TwoRendered) && given.image.first() == Some(&2) {
        rule = UNICODE_16_0;
    }
    let args = RenderArgs { rule, ..args };
    if planted(Fault::RenderRuleNotKept) {
        world.rendering.rule = 0;
    }
    let call = Rendering { given, args };
    let mut answer = call.spoiled(world);
    if let Ok(Answer::Written { state, .. }) = &mut answer {
        state.rule = rule;
    }
    answer
}

/// What is tested of source, image and rule before all else, if it isn't as
/// the judge does it.
fn early(given: Given, rule: usize) -> Result<(), Refusal> {
    let Given { source, image } = given;
    if planted(Fault::RuleLate) && rule::check(rule).is_err() {
        reader::check_source_length(source)?;
        reader::check_header(image)?;
    }
    rule::check(looked_at(rule))?;
    let supplied = looked_at(rule) == SUPPLIED;
    if planted(Fault::TwoSupplied) && supplied {
        reader::check_source_length(source)?;
        reader::check_encoding(source)?;
    }
    if planted(Fault::HeaderFirst) && !supplied {
        reader::check_source_length(source)?;
        reader::check_header(image)?;
    }
    Ok(())
}

/// A rendering call, but for the state and the buffers.
#[derive(Clone, Copy)]
struct Rendering<'g> {
    given: Given<'g>,
    args: RenderArgs,
}

impl Rendering<'_> {
    /// As the judge answers it.
    fn right(self, world: &mut World) -> Answered {
        render_call(self.given, world, self.args)
    }

    /// The same by another rule, whatever is carried.
    fn by(self, world: &mut World, rule: usize) -> Answered {
        let args = RenderArgs { rule, ..self.args };
        world.rendering.rule = 0;
        Rendering { args, ..self }.right(world)
    }

    /// As a fault has it.
    fn spoiled(self, world: &mut World) -> Answered {
        let rule = self.args.rule;
        let before = world.clone();
        let right = self.right(world);
        let after = std::mem::replace(world, before.clone());
        let other = match right {
            Err(Refusal { number: 11, place }) => {
                self.torn(world, place as usize)
            }
            Err(Refusal { number: 2, .. }) if planted(Fault::NoTwo) => {
                Some(self.by(world, SUPPLIED))
            }
            Err(Refusal { number: 10, .. }) => {
                self.turn_one(world);
                None
            }
            Err(_) => None,
            Ok(_) => self.measured_otherwise(world, rule),
        };
        match other {
            Some(answer) => answer,
            None => {
                let turned = std::mem::take(&mut world.store);
                *world = after;
                if right.is_err() {
                    world.store = turned;
                }
                right
            }
        }
    }

    /// What is answered in place of 11 for a row.
    fn torn(self, world: &mut World, place: usize) -> Option<Answered> {
        if self.args.rule == SUPPLIED {
            return None;
        }
        let mut supplied = world.clone();
        let answer = self.by(&mut supplied, SUPPLIED);
        let row = (place < world.room_for_rows())
            .then(|| world.rows(place + 1)[place]);
        let empty = row.is_some_and(|row| row.length == 0);
        let passes =
            planted(Fault::TornTexts) || planted(Fault::TornEmpty) && empty;
        let late = planted(Fault::TornLate)
            && matches!(answer, Err(Refusal { number: 11, .. }));
        (passes || late).then(|| {
            *world = supplied;
            answer
        })
    }

    /// What is answered in place of what is right.
    fn measured_otherwise(
        self,
        world: &mut World,
        rule: usize,
    ) -> Option<Answered> {
        if rule == SUPPLIED {
            let mut tested = world.clone();
            let answer = self.by(&mut tested, UNICODE_16_0);
            let torn = matches!(answer, Err(Refusal { number: 11, .. }));
            return (planted(Fault::TornSupplied) && torn).then_some(answer);
        }
        if planted(Fault::StrayByte)
            && let Some(place) = self.stray(world)
        {
            return Some(Err(refusal(11, place)));
        }
        if planted(Fault::StrMeasured) {
            self.measure_strings(world);
            return Some(self.by(world, rule));
        }
        let by = match planted(Fault::AsciiByBytes) {
            true => SUPPLIED,
            false => measured(rule),
        };
        (by != rule).then(|| self.by(world, by))
    }

    /// The places of the rows that are read.
    fn read(self, world: &World) -> impl Iterator<Item = (usize, Row)> {
        let rows = world.rows(self.args.stop).into_iter().enumerate();
        rows.skip(world.rendering.next_row)
    }

    /// The first empty text at a byte 80 to BF.
    fn stray(self, world: &World) -> Option<usize> {
        let words = rows::fixed_words();
        let texts = self.texts(&words);
        let mut rows = self.read(world).filter(|(_, row)| row.length == 0);
        let found = rows.find(|(_, row)| {
            let origin = texts.origin(row.origin).expect("an origin");
            let byte = origin.get(row.start as usize);
            byte.is_some_and(|byte| (0x80..0xC0).contains(byte))
        });
        found.map(|(place, _)| place)
    }

    /// Gives each `Str` row the width of its text.
    fn measure_strings(self, world: &mut World) {
        let words = rows::fixed_words();
        let texts = self.texts(&words);
        let edition = rule::edition(self.args.rule).expect("Unicode's");
        for (place, mut row) in self.read(world).collect::<Vec<_>>() {
            let origin = texts.origin(row.origin).expect("an origin");
            let text = &origin[row.start as usize..][..row.length as usize];
            let text = std::str::from_utf8(text).expect("it is whole");
            if row.kind == rows::STR {
                row.width = edition.columns(text) as u32;
                world.put_rows(place, &[row]);
            }
        }
    }

    /// Leaves the first `Ascii` row as a `Str` row.
    fn turn_one(self, world: &mut World) {
        let ascii = self.read(world).find(|(_, row)| row.kind == rows::ASCII);
        if planted(Fault::RowsTurned)
            && self.args.rule != SUPPLIED
            && let Some((place, mut row)) = ascii
        {
            row.kind = rows::STR;
            world.put_rows(place, &[row]);
        }
    }

    fn texts<'t>(&'t self, words: &'t str) -> Texts<'t> {
        Texts {
            source: self.given.source,
            image: self.given.image,
            words: words.as_bytes(),
        }
    }
}

/// The columns of a text.
pub fn columns(text: &[u8], rule: u64, supplied: u64, out: &mut [u64; 2]) {
    /// In the middle of a range of width 2.
    const POINT: &[u8] = "\u{9FFF}".as_bytes();
    let supplied = match planted(Fault::BytesSupplied) {
        true => text.len(),
        false => supplied as usize,
    };
    match rule::columns(text, looked_at(rule as usize), supplied) {
        Ok(mut columns) => {
            if planted(Fault::OneCodePoint) && text == POINT {
                columns = 1;
            }
            if planted(Fault::BadBytesCounted) {
                let start = text.utf8_chunks().next();
                let start = start.map_or(0, |chunk| chunk.valid().len());
                columns += text.len() - start;
            }
            put(out, &[0, columns as u64]);
        }
        Err(refusal) => put_refusal(out, refusal),
    }
}
