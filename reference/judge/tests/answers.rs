//! The stored answers read as ANSWERS.md says.

use judge::{
    answers::{self, frames, text},
    batch::{Batched, batch},
    calls::Call,
    choice::Choice,
    driver::Run,
    examples, explain, formulas,
    generate::{self, Class},
    program::{self, Widths},
    reads_back::{Verdict, reads_back},
    refusal::Refusal,
    steps,
};

/// Reads big-endian numbers and runs of bytes off the front.
struct Input<'b>(&'b [u8]);

impl<'b> Input<'b> {
    fn bytes(&mut self, count: usize) -> &'b [u8] {
        let (front, rest) = self.0.split_at(count);
        self.0 = rest;
        front
    }

    fn number(&mut self, size: usize) -> usize {
        let bytes = self.bytes(size).iter();
        bytes.fold(0, |number, byte| number << 8 | usize::from(*byte))
    }
}

#[test]
fn fnv_1a_has_its_known_values() {
    assert_eq!(frames::fnv1a(*b""), 0x811C_9DC5);
    assert_eq!(frames::fnv1a(*b"a"), 0xE40C_292C);
    assert_eq!(frames::fnv1a(*b"foobar"), 0xBF9C_F968);
}

#[test]
fn text_answers_are_laid_out_as_described() {
    let file = text::answers();
    let mut input = Input(&file);
    let single = input.bytes(256);
    assert_eq!((single[0x41], single[0x80]), (255, 0));
    let double = input.bytes(65_536);
    assert_eq!(double[0xC3A9], 255);
    assert_eq!(double[0x41A9], 1);
    assert_eq!(double[0xC141], 0);
    let ranges = input.number(2);
    let ranges: Vec<(usize, usize)> = (0..ranges)
        .map(|_| (input.number(4), input.number(4)))
        .collect();
    assert_eq!(ranges.len(), 10);
    assert_eq!(ranges[..3], [(9, 13), (0x20, 0x20), (0x85, 0x85)]);
    let points: usize = ranges.iter().map(|(a, b)| b - a + 1).sum();
    assert_eq!(points, 25);
    let mut well_formed = 0;
    let samples = input.number(2);
    for _ in 0..samples {
        let length = input.number(1);
        let sample = input.bytes(length);
        let check = input.number(1);
        assert_eq!(check == 255, std::str::from_utf8(sample).is_ok());
        if check == 255 {
            well_formed += 1;
            let places = length + 2;
            input.bytes(2 * places * places + places + 8 * places);
            check_places(&mut input, sample);
        }
    }
    assert!(input.0.is_empty());
    assert!(samples > 2_500 && well_formed > 1_200, "{samples}");
}

/// Where the last newline of each range is, found by going back from its end.
fn check_places(input: &mut Input, sample: &[u8]) {
    let text = std::str::from_utf8(sample).expect("well-formed");
    for a in 0..=text.len() + 1 {
        for b in 0..=text.len() + 1 {
            let there = text.is_char_boundary(a) && text.is_char_boundary(b);
            let newline = |place: &usize| there && sample[*place] == b'\n';
            let due = (a..b).rev().find(newline).unwrap_or(b);
            assert_eq!(input.number(1), due, "{a}..{b} of {text:?}");
        }
    }
}

#[test]
fn frame_answers_are_laid_out_as_described() {
    for (class, _) in Class::ALL {
        for frame in generate::frames(class, 3, 40) {
            let answered = frames::answered(&frame);
            let mut input = Input(&answered);
            let due = program::answer(&frame, Widths::Supplied);
            let length = input.number(4);
            assert_eq!(input.bytes(length), frame);
            check_answer(&mut input, &due);
            // By the archive entry, where the comments are refused.
            if due.err().is_some_and(|refusal| refusal.number == 7) {
                let archived = program::answer_archived(&frame);
                check_answer(&mut input, &archived);
            }
            assert!(input.0.is_empty());
        }
    }
}

fn check_answer(input: &mut Input, due: &Result<Run, Refusal>) {
    let number = input.number(1);
    let place = input.number(8);
    let run = match due {
        Ok(run) => run,
        Err(refusal) => {
            let numbers = (refusal.number.into(), refusal.place as usize);
            assert_eq!((number, place), numbers);
            return;
        }
    };
    assert_eq!((number, place), (0, 0));
    assert_eq!(input.number(4), run.rows.len());
    input.bytes(4);
    assert_eq!(input.number(4), run.closed.next_number);
    input.bytes(4);
    assert_eq!(input.number(4), run.comments_left);
    let stops = input.number(2) + 1;
    assert_eq!(stops, run.stops.len());
    input.bytes((stops - 1) * 16);
    let last = [(); 4].map(|()| input.number(4));
    assert_eq!(last[0] + 1, run.rows.len());
    assert_eq!(last[1], run.closed.next_number);
    assert_eq!(last[2], run.closed.comments_placed);
    assert_eq!(last[3], run.closed.position);
    let length = input.number(4);
    assert_eq!(input.bytes(length), run.text.as_bytes());
}

#[test]
fn an_account_names_rows_and_text() {
    let frame = examples::frame("const").unwrap();
    let account = explain::explain(&frame, Widths::Supplied);
    assert!(account.starts_with("rows 10\n"));
    assert!(account.ends_with("text, 18 bytes:\nconst A: u32 = 1;\n"));
}

/// Steps over a world and gives its store's length.
fn skip_world(input: &mut Input) -> usize {
    let cells = input.number(4);
    input.bytes(4 * cells);
    let marks = input.number(4);
    input.bytes(marks + LAYOUT_STATE);
    skip_render_state(input);
    cells
}

/// Steps over a rendering state: its numbers, then the rows it lists.
fn skip_render_state(input: &mut Input) {
    input.bytes(RENDER_STATE);
    let count = input.number(4);
    input.bytes(4 * count.min(256));
}

const LAYOUT_STATE: usize = 2 + 7 * 4;
const RENDER_STATE: usize = 2 * 4 + 8 + 4 * 4;
/// Stop, argument and choice, then the rule.
const ARGUMENTS: usize = 3 * 4 + 8;

#[test]
fn call_answers_are_laid_out_as_described() {
    let random = (0..100).flat_map(|index| {
        [
            generate::call_case,
            generate::foot_case,
            generate::rule_case,
            generate::allotment_list,
        ]
        .map(|make| make(3, index))
    });
    let fixed = [
        generate::rendering_cases(),
        generate::rule_cases(),
        generate::allotment_cases(),
    ];
    let mut all_entered = 0;
    for case in random.chain(fixed.into_iter().flatten()) {
        let answered = answers::calls::answered(&case);
        let mut input = Input(&answered);
        for given in [&case.source, &case.image] {
            let length = input.number(4);
            assert_eq!(input.bytes(length), given);
        }
        let cells = skip_world(&mut input);
        assert_eq!(cells, case.world.store.len());
        let calls = input.number(2);
        assert_eq!(calls, case.calls.len());
        let [mut written, mut entered] = [0; 2];
        for one in &case.calls {
            let kind = input.number(1);
            let due = match one {
                Call::Layout(args) if args.archive => 2,
                Call::Layout(_) => 0,
                Call::Render(_) => 1,
            };
            assert_eq!(kind, due);
            input.bytes(ARGUMENTS);
            if kind == 1 {
                assert_eq!(input.number(8), allotment(one));
            }
            let refusal = input.number(1);
            input.bytes(8);
            match (refusal, kind) {
                (0, 0 | 2) => {
                    input.bytes(LAYOUT_STATE + 4);
                }
                (0, _) => {
                    skip_render_state(&mut input);
                    written += input.number(4);
                    entered += input.number(4);
                }
                _ => {}
            }
        }
        assert_eq!(skip_world(&mut input), cells);
        assert_eq!(input.number(4), written);
        assert_eq!(input.0.len(), written);
        all_entered += entered;
    }
    assert!(all_entered > 1_000, "{all_entered}");
}

fn allotment(call: &Call) -> usize {
    match call {
        Call::Layout(_) => 0,
        Call::Render(args) => args.allotment,
    }
}

#[test]
fn step_answers_are_laid_out_as_described() {
    let file = answers::replay::steps_input();
    let mut input = Input(&file);
    let [mut written, mut refused] = [0, 0];
    while !input.0.is_empty() {
        let length = input.number(4);
        let list = input.bytes(length);
        let number = input.number(2);
        let place = input.number(4);
        match steps::write(list, place) {
            Ok(image) => {
                written += 1;
                assert_eq!((number, place), (0, image.len()));
                assert_eq!(input.bytes(place), image);
            }
            Err(refusal) => {
                refused += 1;
                let due = (refusal.number.into(), refusal.place as usize);
                assert_eq!((number, place), due);
            }
        }
    }
    assert!(written >= 20 && refused >= 90, "{written} and {refused}");
}

#[test]
fn formulas_are_laid_out_as_described() {
    let file = answers::replay::formulas_input();
    let mut input = Input(&file);
    let [mut images, mut refused] = [0; 2];
    while !input.0.is_empty() {
        let [size, place] = [(); 2].map(|()| input.number(8));
        let number = input.number(2);
        let told = input.number(4);
        match formulas::write(size, place, usize::MAX) {
            Ok(image) => {
                images += 1;
                assert_eq!((number, told), (0, image.len()));
                assert_eq!(input.bytes(told), image);
            }
            Err(refusal) => {
                refused += 1;
                let due = (refusal.number.into(), refusal.place as usize);
                assert_eq!((number, told), due);
            }
        }
    }
    assert!(images > 250 && refused > 30, "{images} {refused}");
}

#[test]
fn verdicts_are_laid_out_as_described() {
    let file = answers::replay::verdicts_input();
    let mut input = Input(&file);
    let [mut same, mut differ, mut refused] = [0; 3];
    while !input.0.is_empty() {
        let [source, image] = [(); 2].map(|()| {
            let length = input.number(4);
            input.bytes(length)
        });
        let number = input.number(2);
        let place = input.number(4);
        match reads_back(source, image) {
            Ok(Verdict::Same) => {
                same += 1;
                assert_eq!((number, place), (0, 0));
            }
            Ok(Verdict::Differs(at)) => {
                differ += 1;
                assert_eq!((number, place), (0, at));
                // The operand is a 63.
                assert_eq!(image[at + 4], 63);
            }
            Err(refusal) => {
                refused += 1;
                let due = (refusal.number.into(), refusal.place as usize);
                assert_eq!((number, place), due);
            }
        }
    }
    assert!(same > 150 && differ > 234 && refused > 6, "{same} {differ}");
}

#[test]
fn batch_answers_are_laid_out_as_described() {
    let file = answers::replay::batches_input();
    let mut input = Input(&file);
    let [mut written, mut refused] = [0, 0];
    while !input.0.is_empty() {
        let length = input.number(4);
        let buffer = input.bytes(length);
        let [width, mode, rule] = [(); 3].map(|()| input.number(8));
        let choice = Choice { width, mode, rule };
        let number = input.number(2);
        let place = input.number(4);
        if number != 0 {
            refused += 1;
            let refusal = judge::refusal::refusal(number as u8, place);
            assert_eq!(batch(buffer, choice, 0, 0), Err(refusal));
            continue;
        }
        written += 1;
        let cells = 3 * place;
        let table = (0..cells).map(|_| input.number(4) as u32).collect();
        let length = input.number(4);
        let texts = input.bytes(length).to_vec();
        let due = Ok(Batched { table, texts });
        assert_eq!(batch(buffer, choice, cells, length), due);
        check_rooms(buffer, choice, [cells, length]);
        assert!(cells <= 768 && length <= 1_000 && buffer.len() <= 9_000);
    }
    assert!(written >= 40 && refused >= 30, "{written} and {refused}");
}

/// What the answers leave to be tried: 19 with one number or byte less.
fn check_rooms(buffer: &[u8], choice: Choice, [cells, room]: [usize; 2]) {
    let refused = |needed| Err(judge::refusal::refusal(19, needed));
    if cells > 0 {
        assert_eq!(batch(buffer, choice, cells - 1, 0), refused(cells));
    }
    if room > 0 {
        assert_eq!(batch(buffer, choice, cells, room - 1), refused(room));
    }
}
