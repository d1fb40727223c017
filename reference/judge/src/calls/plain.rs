//! The plain run of document 01's demand 3: it keeps how far layout and
//! rendering came, and nothing that a call answered.

use super::{Answer, Call, Given, LayoutArgs, RenderArgs, World, call};
use crate::{allotment::ALL_ROWS, refusal::Refusal};

/// How far both came, and what the accepted calls chose: the last accepted
/// layout call, `None` before the first, and one rendering call that goes to
/// the furthest stop and enters as many of the rows before it as were entered.
#[derive(Clone, Copy, Default)]
struct Far {
    laid: Option<Call>,
    shown: Option<RenderArgs>,
}

/// The answers and what is due in the end, from fresh states.
///
/// It speaks of lists for which [`reads_laid_rows_alone`] holds. On others it
/// may panic: rows that were rendered, then laid over, may be cut by the stop.
pub fn plain_run(
    given: Given,
    store: &[u32],
    marks: &[u8],
    calls: &[Call],
) -> (Vec<Result<Answer, Refusal>>, World) {
    let mut far = Far::default();
    let mut answers = Vec::new();
    let due = |far| due(given, store, marks, far);
    for one in calls {
        let answer = call(given, &mut due(far), *one);
        if answer.is_ok() {
            match *one {
                // What is due doesn't depend on the entry.
                Call::Layout(args) => {
                    far.laid = Some(Call::Layout(LayoutArgs {
                        archive: true,
                        ..args
                    }));
                }
                Call::Render(args) => {
                    let laid = Far { shown: None, ..far };
                    let total = total(given, due(laid), args);
                    far.shown = Some(further(far.shown, args, total));
                }
            }
        }
        answers.push(answer);
    }
    (answers, due(far))
}

/// The plain run's one go behind an accepted call: to the furthest stop, and
/// with the rows that the call entered, its allotment or, if fewer, the rows
/// still to be entered of so many before its own stop.
fn further(
    shown: Option<RenderArgs>,
    args: RenderArgs,
    total: usize,
) -> RenderArgs {
    let (stop, entered) =
        shown.map_or((0, 0), |shown| (shown.stop, shown.allotment));
    RenderArgs {
        stop: stop.max(args.stop),
        // In one go there is more to write.
        room: usize::MAX,
        allotment: entered
            + args.allotment.min(total.saturating_sub(entered)),
        ..args
    }
}

/// The rows that a whole rendering enters up to a call's stop, where what is
/// due is laid out and nothing rendered.
fn total(given: Given, mut laid: World, args: RenderArgs) -> usize {
    let whole = RenderArgs {
        room: usize::MAX,
        allotment: ALL_ROWS,
        ..args
    };
    match call(given, &mut laid, Call::Render(whole)) {
        Ok(Answer::Written { entered, .. }) => entered,
        other => panic!("the rows before it are whole: {other:?}"),
    }
}

/// Rows and layout state in one go, then marks, text and rendering state of
/// so many rows before the other stop in one go.
fn due(given: Given, store: &[u32], marks: &[u8], far: Far) -> World {
    let mut world = World {
        store: store.to_vec(),
        marks: marks.to_vec(),
        ..World::default()
    };
    let shown = far.shown.map(|args| {
        Call::Render(RenderArgs {
            // Where no row was entered there is none, and 0 is refused.
            allotment: args.allotment.max(1),
            ..args
        })
    });
    for one in [far.laid, shown].into_iter().flatten() {
        call(given, &mut world, one).expect("accepted before");
    }
    world
}

/// Whether no accepted rendering call of a list reads a row that isn't laid
/// out yet. Only then does the cut rule speak of the list: what such rows
/// held at first may be rendered, and later laid over.
pub fn reads_laid_rows_alone(
    given: Given,
    store: &[u32],
    marks: &[u8],
    calls: &[Call],
) -> bool {
    let mut world = World {
        store: store.to_vec(),
        marks: marks.to_vec(),
        ..World::default()
    };
    calls.iter().all(|one| {
        let laid = world.laying.at.next_row;
        let from = world.rendering.reads_from();
        let accepted = call(given, &mut world, *one).is_ok();
        match *one {
            Call::Render(RenderArgs { stop, .. }) => {
                !accepted || stop <= laid || stop <= from
            }
            Call::Layout(_) => true,
        }
    })
}
