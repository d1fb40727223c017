//! A layout call: refusals 20, 1 to 7, 12, 8.

use super::{Answer, Given, MOST_ROWS, World};
use crate::{
    driver::{Layout, Stop},
    mode,
    reader::{self, Accepted, Reading},
    refusal::{Refusal, refusal},
    rule,
    tree::Input,
};

const MOST_NUMBERS: usize = 1_048_576;

/// The state that layout carries from call to call. Fresh is all 0.
#[derive(Clone, Copy, Debug, Default, PartialEq, Eq)]
pub struct LayoutState {
    pub begun: bool,
    pub closed: bool,
    pub next_declaration: usize,
    pub at: Stop,
    /// That of the calls so far; 0 before the first.
    pub mode: usize,
    /// 0: none yet.
    pub rule: usize,
}

/// What a layout call is told.
#[derive(Clone, Copy, Debug, PartialEq, Eq)]
pub struct LayoutArgs {
    /// The declaration to stop before.
    pub stop: usize,
    pub close: bool,
    pub mode: usize,
    pub rule: usize,
    /// Request 10: whether it is made at the entry for archived images.
    pub archive: bool,
}

impl LayoutArgs {
    /// How the entry reads.
    pub fn reading(&self) -> Reading {
        match self.archive {
            true => Reading::Earlier,
            false => Reading::Strict,
        }
    }
}

/// Lays out from where the state stands to before the stop, closes by the
/// mode, and measures by the rule.
pub fn layout_call(
    given: Given,
    world: &mut World,
    args: LayoutArgs,
) -> Result<Answer, Refusal> {
    let Given { source, image } = given;
    rule::check_for(args.rule, image)?;
    let accepted = reader::read_by(source, image, args.reading())?;
    check_state(world, &accepted, args.stop, args.close)?;
    check_mode(&world.laying, args.mode)?;
    rule::check_carried(args.rule, world.laying.rule)?;
    let input = Input::new(&accepted, image);
    let _held = input.supply_widths();
    let state = world.laying;
    let mut layout = lay_out(&input, &state, args);
    let at = layout.stop();
    if at.next_row > world.room_for_rows() {
        return Err(refusal(8, at.next_row));
    }
    world.put_rows(state.at.next_row, &layout.rows);
    world.laying = LayoutState {
        begun: true,
        closed: args.close,
        next_declaration: args.stop,
        at,
        mode: args.mode,
        rule: args.rule,
    };
    Ok(Answer::LaidOut {
        state: world.laying,
        comments_left: accepted.comments.len() - at.comments_placed,
    })
}

/// The original from where the state stands.
fn lay_out<'i>(
    input: &'i Input,
    state: &LayoutState,
    args: LayoutArgs,
) -> Layout<'i> {
    let mut layout = Layout::new(input, state.at, args.rule);
    if !state.begun {
        layout.shebang();
    }
    for place in state.next_declaration..args.stop {
        layout.declaration(place);
    }
    if args.close {
        layout.close(args.mode);
    }
    layout
}

/// Refusal 12, on the mode: one over 1, or another than that of the calls
/// before. That fresh states carry none is tested with the others.
fn check_mode(state: &LayoutState, mode: usize) -> Result<(), Refusal> {
    mode::check(mode)?;
    if state.begun && state.mode != mode {
        return Err(refusal(12, 0));
    }
    Ok(())
}

/// Refusal 12, on the state and on the other arguments.
fn check_state(
    world: &World,
    accepted: &Accepted,
    stop: usize,
    close: bool,
) -> Result<(), Refusal> {
    let state = world.laying;
    // The shebang's place comes first.
    let declarations = accepted.tree.children.len() - 1;
    let legal = (state.begun || state == LayoutState::default())
        && state.next_declaration <= declarations
        && state.at.comments_placed <= accepted.comments.len()
        && state.at.position <= accepted.source.len()
        && state.at.next_row <= world.room_for_rows()
        && state.at.next_row <= MOST_ROWS
        && state.at.next_number <= MOST_NUMBERS;
    let may_stop = !state.closed
        && (state.next_declaration..=declarations).contains(&stop)
        && (!close || stop == declarations);
    if legal && may_stop {
        Ok(())
    } else {
        Err(refusal(12, 0))
    }
}
