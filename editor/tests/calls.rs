//! Layout and rendering by calls, cut at any place, and in many threads.

mod support;

use std::thread;

use rrufthim::{
    File, Options,
    calls::{LayoutArgs, LayoutState, ROW, RenderState, check, layout},
};
use support::{Buffers, DECLARATIONS, SOURCE, tariff_image};

/// Lays out up to each stop in turn, and closes at the last.
fn lay(
    buffers: &mut Buffers,
    file: File<'_>,
    stops: &[usize],
) -> LayoutState {
    let mut state = LayoutState::default();
    for stop in stops {
        let close = *stop == DECLARATIONS;
        let args = LayoutArgs::up_to(*stop).with_close(close);
        let store = &mut buffers.store;
        let laid = layout(file, store, &state, &args, &Options::default());
        state = laid.expect("accepted").state;
    }
    state
}

/// Renders up to each stop in turn, and joins the texts.
fn draw(buffers: &mut Buffers, file: File<'_>, stops: &[usize]) -> Vec<u8> {
    let mut state = RenderState::default();
    let mut text = Vec::new();
    for stop in stops {
        let options = &Options::default();
        let written = buffers.render(file, &state, *stop, options);
        let written = written.expect("accepted");
        state = written.state;
        text.extend(&buffers.output[..written.bytes]);
    }
    text
}

#[test]
fn cuts_leave_what_one_go_leaves() {
    let image = tariff_image();
    let file = File::new(SOURCE, &image);
    let mut whole = Buffers::ample();
    let due = whole.format(file).expect("a text");
    let rows = due.rows * ROW;
    for stops in [&[2][..], &[0, 2], &[0, 1, 2], &[1, 1, 2]] {
        let mut buffers = Buffers::ample();
        let state = lay(&mut buffers, file, stops);
        assert!(state.begun && state.closed);
        assert_eq!(state.next_row, due.rows);
        assert_eq!(state.next_number, due.numbers);
        assert_eq!((state.comments_placed, state.mode), (3, 1));
        assert_eq!(state.rule, 1);
        assert_eq!(buffers.store[..rows], whole.store[..rows]);
        assert_eq!(buffers.store[rows..], whole.store[rows..]);
        let text = draw(&mut buffers, file, &[0, due.rows]);
        assert_eq!(text, whole.output[..due.bytes]);
    }
}

/// Rendering may stop at rows that layout stopped at.
#[test]
fn rendering_follows_layout() {
    let image = tariff_image();
    let file = File::new(SOURCE, &image);
    let mut whole = Buffers::ample();
    let due = whole.format(file).expect("a text");
    let mut buffers = Buffers::ample();
    let first = lay(&mut buffers, file, &[1]).next_row;
    let all = lay(&mut buffers, file, &[1, 2]).next_row;
    let text = draw(&mut buffers, file, &[first, all]);
    assert_eq!(text, whole.output[..due.bytes]);
}

#[test]
fn the_reader_counts() {
    let image = tariff_image();
    let accepted = check(File::new(SOURCE, &image)).expect("accepted");
    assert_eq!((accepted.comments, accepted.tree), (3, 7 + 3 * 8));
    assert_eq!(accepted.declarations, DECLARATIONS);
}

/// A row and a mark for each byte of the image are always enough.
#[test]
fn buffers_by_the_image() {
    let image = tariff_image();
    let mut buffers = Buffers::new(image.len(), image.len(), 1_000);
    assert!(buffers.format(File::new(SOURCE, &image)).is_ok());
}

#[test]
fn threads_do_not_meet() {
    let image = tariff_image();
    let file = File::new(SOURCE, &image);
    let mut whole = Buffers::ample();
    let due = whole.format(file);
    thread::scope(|scope| {
        for _ in 0..8 {
            scope.spawn(|| {
                for _ in 0..200 {
                    let mut own = Buffers::ample();
                    assert_eq!(own.format(file), due);
                    assert_eq!(own, whole);
                }
            });
        }
    });
}
