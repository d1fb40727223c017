//! Stores about as large as rendering takes: 2,097,152 rows, and one more.

use judge::{
    allotment::ALL_ROWS,
    calls::{Call, LayoutArgs, LayoutState, MOST_ROWS, RenderArgs, World},
    driver::Stop,
    generate::CallCase,
    image::{self, node},
    mode::OLD,
    rows::{self, Row},
    rule::{SUPPLIED, UNICODE_16_0},
    width::REFERENCE,
};

pub const COUNT: usize = 6;

/// Calls on the largest store and on one row more, by place under [`COUNT`].
pub fn numbered(place: usize) -> CallCase {
    let render = |stop, rule| {
        Call::Render(RenderArgs {
            stop,
            room: 1 << 22,
            width: REFERENCE,
            rule,
            allotment: ALL_ROWS,
        })
    };
    let laying = |next_row| LayoutState {
        begun: true,
        at: Stop {
            next_row,
            ..Stop::default()
        },
        ..LayoutState::default()
    };
    let close = Call::Layout(LayoutArgs {
        stop: 0,
        close: true,
        mode: OLD,
        rule: SUPPLIED,
        archive: false,
    });
    let fresh = LayoutState::default();
    match place {
        0 => case(flat(), fresh, render(MOST_ROWS, SUPPLIED)),
        1 => case(flat(), fresh, render(MOST_ROWS + 1, SUPPLIED)),
        2 => case(nested(), fresh, render(MOST_ROWS, SUPPLIED)),
        3 => case(flat(), laying(MOST_ROWS), close),
        4 => case(nested(), fresh, render(MOST_ROWS, UNICODE_16_0)),
        _ => case(flat(), laying(MOST_ROWS + 1), close),
    }
}

fn case(store: Vec<u32>, laying: LayoutState, call: Call) -> CallCase {
    CallCase {
        source: b"".to_vec(),
        image: image::write(&[], &node(1, 0..0, [None])),
        world: World {
            store,
            marks: vec![7; 40],
            laying,
            ..World::default()
        },
        calls: vec![call],
    }
}

fn store(rows: impl Iterator<Item = Row>) -> Vec<u32> {
    rows.flat_map(|row| row.cells()).collect()
}

fn leaf(place: usize) -> Row {
    let after = place as u32 + 1;
    let kinds = [rows::ASCII, rows::LINE, rows::WRAP_PARENT, rows::LINE];
    let kind = kinds[place % kinds.len()];
    let length = u32::from(kind == rows::ASCII);
    Row {
        kind,
        after,
        origin: 2 * length,
        length,
        ..Row::default()
    }
}

fn flat() -> Vec<u32> {
    store((0..=MOST_ROWS).map(leaf))
}

/// Groups of 32 rows, in groups of 32 groups.
fn nested() -> Vec<u32> {
    let row = |place: usize| {
        let size = match place % 1_024 {
            0 => 1_024,
            at if at % 32 == 1 => 31,
            _ => return leaf(place),
        };
        Row {
            kind: rows::GROUP,
            number: (place % 37) as u32,
            after: (place + size) as u32,
            ..Row::default()
        }
    };
    store((0..MOST_ROWS + 1).map(row))
}
