//! Lists of calls, every buffer compared whole after every call.

use judge::{
    allotment::ALL_ROWS,
    calls::{
        self, Answer, Call, Given, LayoutArgs, LayoutState, RenderArgs,
        RenderState, World,
    },
    contents::{Contents, Place},
    frame::Frame,
    generate::CallCase,
    listed::Listed,
    mode::NEW,
    random::Random,
    refusal::Refusal,
    rule::{SUPPLIED, UNICODE_16_0},
    width::REFERENCE,
};

use super::{
    Tally,
    buffers::{first_difference, junk_bytes},
    texts,
};

/// Makes the calls of a case on both sides, and one more that renders what is
/// laid out and not rendered yet.
pub fn compare(tally: &mut Tally, heading: &str, case: &CallCase) {
    let mut list = List::new(case);
    for (place, one) in case.calls.iter().enumerate() {
        let what = format!("call {place}, {one:?}");
        if !list.call(tally, heading, *one, &what) {
            return;
        }
    }
    if let Some(one) = list.rest() {
        let heading = format!("{heading}, the rest");
        list.call(tally, &heading, one, "the rest");
    }
}

/// A list under way, on both sides.
struct List<'l> {
    given: Given<'l>,
    due: World,
    got: World,
    /// What the file says, as long as the calls started afresh and read no
    /// row that wasn't laid out.
    contents: Option<Contents<'l>>,
}

impl<'l> List<'l> {
    fn new(case: &'l CallCase) -> Self {
        let CallCase {
            source,
            image,
            world,
            ..
        } = case;
        let fresh = world.laying == LayoutState::default()
            && world.rendering == RenderState::default()
            && world.text.is_empty();
        let contents = texts::contents(Frame { source, image });
        List {
            given: Given { source, image },
            due: world.clone(),
            got: world.clone(),
            contents: contents.filter(|_| fresh),
        }
    }

    /// A call with just the room to render all rows laid out, if the texts are
    /// looked at and some rows aren't rendered.
    fn rest(&self) -> Option<Call> {
        let World {
            laying, rendering, ..
        } = &self.due;
        let stop = laying.at.next_row;
        let chosen = |carried, otherwise| match carried {
            0 => otherwise,
            carried => carried,
        };
        let width = chosen(rendering.width, REFERENCE);
        let rule = match self.given.image.first() {
            Some(2) => UNICODE_16_0,
            _ => SUPPLIED,
        };
        let rule = chosen(rendering.rule, rule);
        let left = self.contents.is_some() && rendering.next_row < stop;
        left.then(|| {
            let one = |room| {
                Call::Render(RenderArgs {
                    stop,
                    room,
                    width,
                    rule,
                    allotment: ALL_ROWS,
                })
            };
            let mut world = self.due.clone();
            match calls::call(self.given, &mut world, one(usize::MAX)) {
                Ok(Answer::Written { bytes, .. }) => one(bytes),
                _ => one(0),
            }
        })
    }

    /// One call on both sides; says if all is the same.
    fn call(
        &mut self,
        tally: &mut Tally,
        heading: &str,
        one: Call,
        what: &str,
    ) -> bool {
        let written = self.due.text.len();
        let laid = self.due.laying.at.next_row;
        let answer = calls::call(self.given, &mut self.due, one);
        let (kind, room) = match one {
            Call::Layout(args) if args.archive => ("archive layout", 0),
            Call::Layout(_) => ("layout", 0),
            Call::Render(args) => ("rendering", args.room),
        };
        let number = answer.err().map_or(0, |refusal| refusal.number);
        tally.count(&format!("{heading}, {kind}"), number);
        let mut output = junk_bytes(room);
        let mut due_output = output.clone();
        let text = &self.due.text[written..];
        due_output[..text.len()].copy_from_slice(text);
        let got = port_call(self.given, &mut self.got, &mut output, one);
        self.join(got, &output);
        self.texts(tally, one, answer, laid);
        let [due, port] = [&self.due, &self.got];
        let difference = first_difference(&due.store, &port.store);
        if let Some(place) = &difference {
            tally.differ(format!("{what}, store: {place}"));
        }
        let same = difference.is_none()
            && tally.expect(what, &answer, &got)
            && tally.expect_bytes(what, &due.marks, &port.marks)
            && tally.expect_bytes(what, &due_output, &output);
        // States are handed on as answered, and the answers are the same.
        self.got.laying = self.due.laying;
        self.got.rendering = self.due.rendering;
        same
    }

    /// Joins what the port wrote to its text.
    fn join(&mut self, got: Result<Answer, Refusal>, output: &[u8]) {
        if let Ok(Answer::Written { bytes, .. }) = got {
            let written = &output[..bytes.min(output.len())];
            self.got.text.extend(written);
        }
    }

    /// Both texts after an accepted rendering call: the program as far as it
    /// is laid out if all of it is rendered, and a start of it otherwise.
    fn texts(
        &mut self,
        tally: &mut Tally,
        one: Call,
        answer: Result<Answer, Refusal>,
        laid: usize,
    ) {
        let Call::Render(RenderArgs { stop, .. }) = one else {
            return;
        };
        let Ok(Answer::Written { state, .. }) = answer else {
            return;
        };
        if stop > laid {
            self.contents = None;
        }
        let Some(contents) = &self.contents else {
            return;
        };
        let to = reached(contents, &self.due.laying);
        let from = Place::default();
        let texts = [&self.due.text, &self.got.text];
        if state.next_row == laid {
            let sorts = [texts::JUDGED_CALLS, texts::CALLS];
            for (sort, text) in sorts.into_iter().zip(texts) {
                texts::expect(tally, sort, contents, [from, to], text);
            }
        } else {
            let sorts =
                [texts::JUDGED_CALLS_UNDER_WAY, texts::CALLS_UNDER_WAY];
            for (sort, text) in sorts.into_iter().zip(texts) {
                texts::expect_begun(tally, sort, contents, to, text);
            }
        }
    }
}

/// How far layout came. Closed in the new mode, it has placed all comments.
fn reached(contents: &Contents, state: &LayoutState) -> Place {
    let placed = match state.closed && state.mode == NEW {
        true => contents.comments.len(),
        false => state.at.comments_placed,
    };
    match state.begun {
        true => contents.behind(placed, state.next_declaration),
        false => Place::default(),
    }
}

/// The port's call on the buffers of a world.
fn port_call(
    given: Given,
    world: &mut World,
    output: &mut [u8],
    one: Call,
) -> Result<Answer, Refusal> {
    let World { store, marks, .. } = world;
    match one {
        Call::Layout(args) => {
            crate::layout(given, store, &world.laying, args)
        }
        Call::Render(args) => {
            let state = &world.rendering;
            crate::render(given, store, marks, output, state, args)
        }
    }
}

/// A copy of a case with one number of its states or calls far out.
pub fn stretched(case: &CallCase, seed: u64, index: u64) -> CallCase {
    const FAR: [usize; 10] = [
        65_536,
        1 << 21,
        (1 << 32) - 1,
        1 << 32,
        (1 << 32) + 1,
        1 << 56,
        (1 << 56) + 1,
        1 << 63,
        usize::MAX - 1,
        usize::MAX,
    ];
    let random = &mut Random::new(101, seed, index);
    let mut case = case.clone();
    let far = *random.pick(&FAR);
    let chosen = random.below(22);
    let which = random.below(case.calls.len());
    let laying = &mut case.world.laying;
    let rendering = &mut case.world.rendering;
    laying.begun |= chosen < 5;
    match chosen {
        0 => laying.next_declaration = far,
        1 => laying.at.next_row = far,
        2 => laying.at.next_number = far,
        3 => laying.at.comments_placed = far,
        4 => laying.at.position = far,
        5 => rendering.pen.indent = far,
        6 => rendering.pen.next_indent = far,
        7 => rendering.pen.column = far,
        8 => rendering.marks_in_use = far,
        9 => rendering.next_row = far,
        10 => rendering.width = far,
        11 => {
            for call in &mut case.calls[which..] {
                if let Call::Render(RenderArgs { width, .. }) = call {
                    *width = far;
                }
            }
        }
        12 => {
            laying.begun |= index.is_multiple_of(2);
            laying.mode = far;
        }
        13 => {
            for call in &mut case.calls[which..] {
                if let Call::Layout(args) = call {
                    args.mode = far;
                }
            }
        }
        14 => {
            laying.begun |= index.is_multiple_of(2);
            laying.rule = far;
        }
        15 => rendering.rule = far,
        20 => {
            for call in &mut case.calls[which..] {
                if let Call::Render(args) = call {
                    args.allotment = far;
                }
            }
        }
        21 => rendering.listed = Listed::of_numbers(1, &[far as u64]),
        16 => {
            for call in &mut case.calls[which..] {
                match call {
                    Call::Layout(LayoutArgs { rule, .. })
                    | Call::Render(RenderArgs { rule, .. }) => *rule = far,
                }
            }
        }
        _ => match &mut case.calls[which] {
            Call::Layout(LayoutArgs { stop, .. })
            | Call::Render(RenderArgs { stop, .. }) => *stop = far,
        },
    }
    case
}
