//! Allotments and listed rows: the judge's calls, wrong where a fault on them
//! is planted.

use std::sync::atomic::Ordering;

use judge::{
    calls::{Answer, Given, RenderArgs, RenderState, World},
    driver::Pen,
    listed::{self, Listed, MOST_LISTED, OpenRow, Way, around},
    refusal::{Refusal, refusal},
    rows::{self, Row},
};

use super::{Fault, PLANTED, planted, rules};

type Answered = Result<Answer, Refusal>;

/// Whether a fault on allotments is planted.
fn spoils() -> bool {
    let ours = Fault::StopUnclosed as u8..=Fault::EnteredOfAll as u8;
    ours.contains(&PLANTED.load(Ordering::Relaxed))
}

/// A rendering call.
pub fn render(
    given: Given,
    world: &mut World,
    mut args: RenderArgs,
) -> Answered {
    if !spoils() {
        return rules::render(given, world, args);
    }
    let before = world.clone();
    args.allotment = allotted(args);
    spoil_listed(world, args);
    let answer = rules::render(given, world, args);
    match answer {
        Ok(Answer::Written {
            state,
            bytes,
            entered,
        }) => {
            let call = Spoiled {
                given,
                args,
                before: &before,
            };
            call.answered(world, state, bytes, entered)
        }
        Err(right) => refused(given, world, args, right),
        other => other,
    }
}

/// An allotment as it is read.
fn allotted(args: RenderArgs) -> usize {
    match args.allotment {
        allotment if planted(Fault::AllotmentInFourBytes) => {
            allotment % (1 << 32)
        }
        0 => 0,
        allotment if planted(Fault::OneMoreRow) => {
            allotment.saturating_add(1)
        }
        allotment => allotment,
    }
}

/// The listed rows as they are read.
fn spoil_listed(world: &mut World, args: RenderArgs) {
    let listed = &mut world.rendering.listed;
    if planted(Fault::ManyListed) && listed.count > MOST_LISTED {
        listed.count %= MOST_LISTED;
    }
    if planted(Fault::FarRowWraps) {
        let numbers = listed.numbers().iter();
        let numbers: Vec<u64> = numbers.map(|n| n % (1 << 32)).collect();
        *listed = Listed::of_numbers(listed.count, &numbers);
    }
    if args.stop <= world.store.len() / Row::CELLS {
        let rows = world.rows(args.stop);
        spoil_last(&mut world.rendering, &rows);
    }
}

/// The last listed row.
fn spoil_last(state: &mut RenderState, rows: &[Row]) {
    let next = state.next_row;
    let mut open = state.listed.rows();
    let Some(last) = open.last_mut() else {
        return;
    };
    if planted(Fault::LastListed) && next <= rows.len() {
        let around = around(rows, state.listed.reads_from(next), next);
        if around.len() == state.listed.count
            && let Some(row) = around.last()
        {
            last.row = *row;
            state.listed = Listed::new(&open);
        }
        return;
    }
    let row = rows.get(last.row);
    let chosen = row.is_some_and(|row| {
        row.kind == rows::IF_WRAP && row.second_part as usize == next
    });
    if planted(Fault::EarlyAtSecond) && chosen {
        // As if the first part were over.
        state.next_row = rows[last.row].after as usize;
        open.pop();
        state.listed = Listed::new(&open);
    }
}

/// What is answered in place of a refusal.
fn refused(
    given: Given,
    world: &mut World,
    args: RenderArgs,
    right: Refusal,
) -> Answered {
    let state = &world.rendering;
    match right.number {
        22 if planted(Fault::ListedFirst) && lists_others(world, args) => {
            Err(refusal(23, 0))
        }
        22 if planted(Fault::NoAllotment) => {
            let one = RenderArgs {
                allotment: 1,
                ..args
            };
            rules::render(given, &mut world.clone(), one)?;
            Ok(Answer::Written {
                state: *state,
                bytes: 0,
                entered: 0,
            })
        }
        15 if planted(Fault::AllotmentBeforeWidth) && args.allotment == 0 => {
            Err(refusal(22, 0))
        }
        23 if planted(Fault::MarksBeforeListed) => {
            let rows = world.rows(args.stop);
            let needed = rows::marks_needed(&rows[state.reads_from()..]);
            match needed > world.marks.len() as u64 {
                true => Err(refusal(9, needed as usize)),
                false => Err(right),
            }
        }
        9 | 11
            if planted(Fault::ReadsFromNext)
                && state.reads_from() < state.next_row
                && right.place > 0 =>
        {
            Err(refusal(23, 0))
        }
        _ => Err(right),
    }
}

/// Whether 23 refuses what a state lists.
fn lists_others(world: &World, args: RenderArgs) -> bool {
    let rows = world.rows(args.stop);
    let RenderState {
        listed,
        next_row,
        pen,
        ..
    } = &world.rendering;
    listed::fault(&rows, listed, *next_row, *pen).is_some()
}

/// An accepted call.
struct Spoiled<'s> {
    given: Given<'s>,
    args: RenderArgs,
    before: &'s World,
}

impl Spoiled<'_> {
    fn answered(
        &self,
        world: &mut World,
        mut state: RenderState,
        bytes: usize,
        mut entered: usize,
    ) -> Answered {
        let from = self.before.rendering;
        if let Some(refusal) = self.refuses(&from) {
            *world = self.before.clone();
            return Err(refusal);
        }
        let rows = world.rows(self.args.stop);
        let passed = &rows[from.next_row..state.next_row];
        if planted(Fault::UnchosenCounted) {
            entered = passed.len();
        }
        if planted(Fault::MadeUpCounted) {
            let calls = passed.iter().filter(|row| row.kind == rows::CALL);
            entered += calls.count();
        }
        if planted(Fault::EnteredOfAll) {
            entered = state.next_row;
        }
        if planted(Fault::MarksOfEntered) {
            let needed = rows::marks_needed(passed) as usize;
            state.marks_in_use = from.marks_in_use.max(needed);
        }
        state.listed = self.listed(&state, &rows, entered);
        Ok(Answer::Written {
            state,
            bytes,
            entered,
        })
    }

    /// What a fault refuses what is right by.
    fn refuses(&self, from: &RenderState) -> Option<Refusal> {
        const OLD_BOUND: usize = 64;
        let rows = self.before.rows(self.args.stop);
        let open = from.listed.rows();
        let is_inside = || {
            from.next_row < rows.len()
                && !around(&rows, 0, from.next_row).is_empty()
        };
        let most = from.pen.indent.max(from.pen.next_indent);
        let others = planted(Fault::ClosedFromIndent)
            && !closes_from_indent(&rows, &open, from.pen)
            || planted(Fault::NoListedRefused)
                && open.is_empty()
                && is_inside()
            || planted(Fault::WrapsTested) && self.has_other_wraps(&open);
        match others {
            true => Some(refusal(23, 0)),
            false if planted(Fault::OldBounds) && most > OLD_BOUND => {
                Some(refusal(12, 0))
            }
            false => None,
        }
    }

    /// Whether an `Indent` that is listed wraps otherwise than the row around
    /// it.
    fn has_other_wraps(&self, open: &[OpenRow]) -> bool {
        let rows = self.before.rows(self.args.stop);
        let pairs = open.iter().zip(open.iter().skip(1));
        let steps = [rows::INDENT, rows::INDENT_NEXT, rows::IF_WRAP];
        pairs.into_iter().any(|(around, own)| {
            steps.contains(&rows[own.row].kind) && around.wraps != own.wraps
        })
    }

    /// The listed rows of the answer.
    fn listed(
        &self,
        state: &RenderState,
        rows: &[Row],
        entered: usize,
    ) -> Listed {
        let mut open = state.listed.rows();
        if planted(Fault::TwoWays) {
            for own in &mut open {
                if own.way == Way::MadeFlat {
                    own.way = Way::Trailing;
                }
            }
        }
        if planted(Fault::WrapsOfRow) {
            let wraps: Vec<bool> = open.iter().map(|own| own.wraps).collect();
            let own = [true].into_iter().chain(wraps);
            for (open, wraps) in open.iter_mut().zip(own) {
                open.wraps = wraps;
            }
        }
        if planted(Fault::StopUnclosed) && entered > 1 {
            return self.listed_before(state, rows, open);
        }
        Listed::new(&open)
    }

    /// With the rows that were listed a row before.
    fn listed_before(
        &self,
        state: &RenderState,
        rows: &[Row],
        open: Vec<OpenRow>,
    ) -> Listed {
        let mut world = self.before.clone();
        let less = RenderArgs {
            allotment: self.args.allotment.min(rows.len()) - 1,
            ..self.args
        };
        let before = rules::render(self.given, &mut world, less);
        match before {
            Ok(Answer::Written { state: less, .. })
                if less.listed.count > open.len()
                    && less.next_row < state.next_row =>
            {
                less.listed
            }
            _ => Listed::new(&open),
        }
    }
}

/// Whether all can be closed, each step being taken from `indent` first.
fn closes_from_indent(rows: &[Row], open: &[OpenRow], pen: Pen) -> bool {
    let mut left = pen;
    open.iter().all(|open| {
        let steps = match rows[open.row].kind {
            rows::INDENT | rows::INDENT_NEXT => open.wraps,
            rows::CALL => open.way == Way::MadeWrapped,
            _ => false,
        };
        let is_indent = rows[open.row].kind == rows::INDENT;
        match (steps, left.indent, left.next_indent) {
            (false, ..) => {}
            (true, 0, 0) => return false,
            (true, 0, _) if is_indent => return false,
            (true, 0, _) => left.next_indent -= 1,
            (true, ..) => left.indent -= 1,
        }
        true
    })
}
