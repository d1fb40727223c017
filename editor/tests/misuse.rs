//! Whatever safe Rust hands over, a call answers or refuses, and a refusal
//! leaves the buffers as they were.

mod support;

use rrufthim::{
    Cause, Comments, File, Formatter, Options, Refusal, Widths,
    calls::{
        self, LayoutArgs, LayoutState, ROW, RenderArgs, RenderState, Verdict,
        check, format_file, layout, render,
    },
    reads_back,
};
use support::{
    Buffers, DECLARATIONS, JUNK, JUNK_NUMBER, Random, SOURCE, Whole, all,
    tariff_image,
};

const TRIES: usize = 20_000;

/// What the tariff script needs.
fn due(file: File<'_>) -> Whole {
    Buffers::ample().format(file).expect("ample buffers")
}

fn try_render(
    buffers: &mut Buffers,
    file: File<'_>,
    state: &RenderState,
    stop: usize,
) -> Result<usize, Refusal> {
    let written = buffers.render(file, state, stop, &Options::default())?;
    Ok(written.bytes)
}

/// The default, or an edition of Unicode.
fn any_rule(random: &mut Random) -> Options {
    Options::default().with_widths(match random.below(3) {
        0 => Widths::Supplied,
        1 => Widths::Unicode15_1,
        _ => Widths::Unicode16_0,
    })
}

#[test]
fn a_short_store_is_refused() {
    let image = tariff_image();
    let file = File::new(SOURCE, &image);
    let needed = due(file).rows;
    for length in 0..needed * ROW {
        let mut store = vec![JUNK_NUMBER; length];
        let (state, args) = (LayoutState::default(), all(DECLARATIONS));
        let options = &Options::default();
        let laid = layout(file, &mut store, &state, &args, options);
        assert_eq!(laid, Err(Refusal::MoreRows { needed }));
        assert!(store.iter().all(|number| *number == JUNK_NUMBER));
    }
}

#[test]
fn short_marks_are_refused() {
    let image = tariff_image();
    let file = File::new(SOURCE, &image);
    let due = due(file);
    let needed = due.numbers;
    for length in 0..needed {
        let mut buffers = Buffers::new(due.rows, length, due.bytes);
        let got = buffers.format(file);
        assert_eq!(got, Err(Refusal::MoreMarks { needed }));
        assert!(buffers.marks.iter().all(|mark| *mark == JUNK));
        assert!(buffers.output.iter().all(|byte| *byte == JUNK));
    }
}

#[test]
fn a_short_output_is_refused() {
    let image = tariff_image();
    let file = File::new(SOURCE, &image);
    let due = due(file);
    let needed = due.bytes;
    for length in 0..due.bytes {
        let mut buffers = Buffers::new(due.rows, due.numbers, length);
        let got = buffers.format(file);
        assert_eq!(got, Err(Refusal::MoreOutput { needed }));
        assert!(buffers.marks.iter().all(|mark| *mark == JUNK));
        assert!(buffers.output.iter().all(|byte| *byte == JUNK));
    }
    let mut exact = Buffers::new(due.rows, due.numbers, due.bytes);
    assert_eq!(exact.format(file), Ok(due));
}

#[test]
fn empty_slices_are_refused() {
    let (empty, options) = (File::new("", ""), &Options::default());
    assert_eq!(check(empty), Err(Refusal::NoImage));
    let state = LayoutState::default();
    let laid = layout(empty, &mut [], &state, &all(0), options);
    assert_eq!(laid, Err(Refusal::NoImage));
    let mut none = Buffers::new(0, 0, 0);
    let state = RenderState::default();
    let rendered = try_render(&mut none, empty, &state, 0);
    assert_eq!(rendered, Err(Refusal::NoImage));
    assert_eq!(none.format(empty), Err(Refusal::NoImage));
    let written = format_file(empty, options, &mut []);
    assert_eq!(written, Err(Refusal::NoImage));
}

#[test]
fn foreign_layout_states() {
    let image = tariff_image();
    let file = File::new(SOURCE, &image);
    let mut random = Random(1);
    let mut refused = 0;
    for _ in 0..TRIES {
        let mut state = LayoutState::default();
        state.begun = random.below(3) > 0;
        state.closed = random.below(4) == 0;
        state.next_declaration = random.wild();
        state.next_row = random.wild();
        state.next_number = random.wild();
        state.comments_placed = random.wild();
        state.position = random.wild();
        state.mode = match random.below(4) {
            0 => random.wild(),
            mode => mode - 1,
        };
        state.rule = match random.below(5) {
            0 => random.wild(),
            rule => rule - 1,
        };
        let (stop, close) = (random.wild(), random.below(2) == 0);
        let args = LayoutArgs::up_to(stop).with_close(close);
        let comments = [Comments::All, Comments::AsRoto];
        let options =
            &any_rule(&mut random).with_comments(comments[random.below(2)]);
        let mut buffers = Buffers::new(random.below(200), 0, 0);
        let before = buffers.clone();
        let store = &mut buffers.store;
        if layout(file, store, &state, &args, options).is_err() {
            refused += 1;
            assert_eq!(buffers, before);
        }
    }
    assert!(refused > 0 && refused < TRIES);
}

#[test]
fn foreign_render_states() {
    let image = tariff_image();
    let file = File::new(SOURCE, &image);
    let mut laid = Buffers::ample();
    let rows = laid.format(file).expect("a text").rows;
    laid.marks.truncate(100);
    laid.marks.fill(1);
    laid.output = vec![JUNK; 4_000];
    let mut random = Random(2);
    let mut refused = 0;
    for _ in 0..TRIES {
        let mut state = RenderState::default();
        state.indent = random.wild();
        state.next_indent = random.wild();
        state.column = random.wild();
        state.marks_in_use = random.wild();
        state.next_row = random.wild();
        state.width = [0, 80, random.wild()][random.below(3)];
        state.rule = [0, 1, 2, 3, random.wild()][random.below(5)];
        let stop = [random.wild(), rows][random.below(2)];
        let options = &any_rule(&mut random);
        let mut buffers = laid.clone();
        if buffers.render(file, &state, stop, options).is_err() {
            refused += 1;
            assert_eq!(buffers, laid);
        }
    }
    assert!(refused > 0 && refused < TRIES);
}

/// One bound over: the table's causes for 12.
#[test]
fn states_over_their_bounds() {
    let image = tariff_image();
    let file = File::new(SOURCE, &image);
    let changes: [fn(&mut RenderState); 6] = [
        |state| state.indent = 385,
        |state| state.next_indent = usize::MAX,
        |state| state.column = (1 << 56) + 1,
        |state| state.marks_in_use = 301,
        |state| state.next_row = 1,
        |state| state.rule = 4,
    ];
    for change in changes {
        let mut state = RenderState::default();
        change(&mut state);
        let got = try_render(&mut Buffers::ample(), file, &state, 0);
        assert_eq!(got, Err(Refusal::BadState), "{state:?}");
    }
}

#[test]
fn stops_out_of_range() {
    let image = tariff_image();
    let file = File::new(SOURCE, &image);
    let (fresh, options) = (LayoutState::default(), &Options::default());
    for stop in [DECLARATIONS + 1, 1 << 32, usize::MAX] {
        let store = &mut Buffers::ample().store;
        let args = LayoutArgs::up_to(stop);
        let laid = layout(file, store, &fresh, &args, options);
        assert_eq!(laid, Err(Refusal::BadState), "{stop}");
    }
    for stop in [301, 2_097_153, 1 << 32, usize::MAX] {
        let fresh = RenderState::default();
        let got = try_render(&mut Buffers::ample(), file, &fresh, stop);
        assert_eq!(got, Err(Refusal::BadRow { row: 0 }), "{stop}");
    }
}

#[test]
fn closing_early_or_twice() {
    let image = tariff_image();
    let file = File::new(SOURCE, &image);
    let store = &mut Buffers::ample().store;
    let mut close = |state: &LayoutState, stop| {
        layout(file, store, state, &all(stop), &Options::default())
    };
    let fresh = LayoutState::default();
    assert_eq!(close(&fresh, 1), Err(Refusal::BadState));
    let closed = close(&fresh, DECLARATIONS).expect("closed").state;
    assert_eq!(close(&closed, DECLARATIONS), Err(Refusal::BadState));
}

/// A store that changed between layout and rendering.
#[test]
fn changed_stores() {
    let image = tariff_image();
    let file = File::new(SOURCE, &image);
    let mut laid = Buffers::ample();
    let rows = laid.format(file).expect("a text").rows;
    let mut random = Random(3);
    let (mut refused, fresh) = (0, RenderState::default());
    for _ in 0..TRIES {
        let mut changed = laid.clone();
        for _ in 0..=random.below(3) {
            let at = random.below(rows * ROW);
            changed.store[at] = random.wild() as u32;
        }
        let mut buffers = changed.clone();
        let options = &any_rule(&mut random);
        match buffers.render(file, &fresh, rows, options) {
            Ok(_) => assert_eq!(buffers.store, changed.store),
            Err(_) => {
                refused += 1;
                assert_eq!(buffers, changed);
            }
        }
    }
    assert!(refused > TRIES / 4 && refused < TRIES);
}

/// Damaged images, and a source that is another file's.
#[test]
fn changed_images_and_sources() {
    let image = tariff_image();
    let mut formatter = Formatter::new();
    let mut random = Random(4);
    let mut refused = 0;
    for _ in 0..TRIES {
        let mut image = image.clone();
        let mut source = SOURCE.as_bytes().to_vec();
        let at = random.below(image.len());
        image[at] = random.next() as u8;
        if random.below(4) == 0 {
            source.truncate(random.below(SOURCE.len()));
        }
        let file = File::new(&source, &image);
        let mut buffers = Buffers::ample();
        let formatted = buffers.format(file);
        let verdict = calls::reads_back(file);
        assert_eq!(verdict.err(), check(file).err());
        assert_eq!(reads_back(file).is_ok(), verdict == Ok(Verdict::Same));
        if let Err(refusal) = check(file) {
            refused += 1;
            assert_eq!(formatted, Err(refusal));
            assert_eq!(buffers, Buffers::ample());
            let options = &Options::default();
            let written = format_file(file, options, &mut buffers.output);
            assert_eq!(written, Err(refusal));
            assert_eq!(buffers, Buffers::ample());
            let error = formatter.format_file(file);
            let cause = error.expect_err("refused").cause;
            assert_eq!(cause, Cause::Refused(refusal));
        }
    }
    assert!(refused > 0 && refused < TRIES);
}

/// What lies beside a lent part of a buffer stays as it was.
#[test]
fn neighbours_are_left_alone() {
    let image = tariff_image();
    let (file, options) = (File::new(SOURCE, &image), &Options::default());
    let due = due(file);
    let (rows, numbers, bytes) = (due.rows * ROW, due.numbers, due.bytes);
    let Buffers {
        mut store,
        mut marks,
        mut output,
    } = Buffers::ample();
    let state = LayoutState::default();
    let (lent, args) = (&mut store[5..5 + rows], all(DECLARATIONS));
    assert!(layout(file, lent, &state, &args, options).is_ok());
    let written = render(
        file,
        &mut store[5..5 + rows],
        &mut marks[5..5 + numbers],
        &mut output[5..5 + bytes],
        &RenderState::default(),
        &RenderArgs::up_to(due.rows),
        options,
    );
    assert_eq!(written.map(|written| written.bytes), Ok(bytes));
    let mut once_more = vec![JUNK; bytes + 10];
    let lent = &mut once_more[5..5 + bytes];
    let written = format_file(file, options, lent);
    assert_eq!(written.map(Whole::from), Ok(due));
    assert_eq!(once_more, output[..bytes + 10]);
    store.drain(5..5 + rows);
    marks.drain(5..5 + numbers);
    output.drain(5..5 + bytes);
    assert!(store.iter().all(|number| *number == JUNK_NUMBER));
    assert!(marks.iter().all(|mark| *mark == JUNK));
    assert!(output.iter().all(|byte| *byte == JUNK));
}
