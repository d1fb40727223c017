//! A night's saves.

use judge::{
    batch::{self, Cause, ROW},
    calls::Given,
    choice::Choice,
    frame::Frame,
    program::OUTPUT,
    refusal::{Refusal, refusal},
};

use super::{
    Fault, moves,
    orders::{self, Entry},
    planted, put, put_refusal, respoken,
};

/// A batch.
pub fn batch(
    frames: &[u8],
    choice: &[u64; 3],
    table: &mut [u32],
    output: &mut [u8],
    out: &mut [u64; 3],
) {
    let [width, mode, rule] = choice.map(|number| number as usize);
    let choice = Choice { width, mode, rule };
    if planted(Fault::ChoiceFirst)
        && let Err(refusal) = choice.check()
    {
        return put_refusal(out, refusal);
    }
    let saves = match split(frames) {
        Ok(files) => Saves::of(&files, choice),
        Err(refusal) => return put_refusal(out, refusal),
    };
    if let Some(refusal) = no_room(&saves, table.len(), output.len()) {
        begin(&saves, table, output);
        return put_refusal(out, refusal);
    }
    saves.write(table, output);
    let counted = saves.rows.iter().filter(|row| row[0] == 0);
    let files = match planted(Fault::RefusedUncounted) {
        true => counted.count(),
        false => saves.rows.len(),
    };
    put(out, &[0, files as u64, saves.texts.len() as u64]);
}

/// The files, or 18, wrong where a fault on frames is planted.
fn split(frames: &[u8]) -> Result<Vec<Frame<'_>>, Refusal> {
    let fault = match batch::split(frames) {
        Ok(files) => return Ok(files),
        Err(fault) => fault,
    };
    let (before, rest) = frames.split_at(fault.place);
    let mut place = fault.place;
    if planted(Fault::OneMoreSave)
        && fault.cause == Cause::TooMany
        && let Ok(more) = batch::split(rest)
    {
        let mut files = batch::split(before).expect("split before");
        files.extend(more);
        return Ok(files);
    }
    if planted(Fault::LengthsWrap)
        && let Some(head) = rest.first_chunk::<8>()
    {
        let both = u64::from_be_bytes(*head);
        let sum = ((both >> 32) as u32).wrapping_add(both as u32);
        let behind = place + 8 + sum as usize;
        place = if behind < frames.len() { behind } else { place };
    }
    place += usize::from(planted(Fault::FramePlace));
    Err(refusal(18, place))
}

/// 19, wrong where a fault on room is planted.
fn no_room(saves: &Saves, cells: usize, room: usize) -> Option<Refusal> {
    let rows = saves.rows.len();
    let [table, texts] = [rows * ROW, saves.texts.len()];
    let exact = planted(Fault::ExactTable) && table == cells && rows > 0;
    let mut tests = [
        (
            table > cells || exact,
            match planted(Fault::TableNeeded) {
                true => rows,
                false => table,
            },
        ),
        (
            texts > room,
            texts - usize::from(planted(Fault::TextsNeeded) && texts > 0),
        ),
    ];
    if planted(Fault::OutputFirst) {
        tests.reverse();
    }
    let failed = tests.into_iter().find(|(failed, _)| *failed);
    failed.map(|(_, needed)| refusal(19, needed))
}

/// What a fault writes before 19.
fn begin(saves: &Saves, table: &mut [u32], output: &mut [u8]) {
    if planted(Fault::TableBeforeRefusal) {
        let cells = saves.rows.iter().flatten();
        table
            .iter_mut()
            .zip(cells)
            .for_each(|(at, cell)| *at = *cell);
    }
    if planted(Fault::TextsBeforeRefusal) {
        let text = saves.texts.iter();
        output
            .iter_mut()
            .zip(text)
            .for_each(|(at, byte)| *at = *byte);
    }
}

/// Rows and texts, one file after the other.
#[derive(Default)]
struct Saves {
    rows: Vec<[u32; ROW]>,
    texts: Vec<u8>,
}

impl Saves {
    fn of(files: &[Frame], choice: Choice) -> Self {
        let mut saves = Saves::default();
        for file in files {
            let Frame { source, image } = *file;
            let given = Given { source, image };
            let rule = moves::batched(image, choice.rule);
            let choice = Choice { rule, ..choice };
            let text = orders::strict(Entry::Batch, given, |reading| {
                batch::single_by(*file, choice, reading)
            });
            saves.add(text.map(|text| respoken(given, text.into())));
        }
        saves
    }

    fn add(&mut self, answer: Result<Vec<u8>, Refusal>) {
        match answer {
            Ok(text) if planted(Fault::TenInARow) && text.len() > OUTPUT => {
                self.rows.push([10, text.len() as u32, 0]);
            }
            Ok(text) => {
                self.rows.push([0, 0, text.len() as u32]);
                if planted(Fault::NeighbourText)
                    && let Some(last) = self.texts.last_mut()
                    && let Some(first) = text.first()
                {
                    *last = *first;
                }
                self.texts.extend(text);
            }
            Err(refusal) => {
                let more = u32::from(planted(Fault::RowPlace));
                let place = refusal.place as u32 + more;
                self.rows.push([refusal.number.into(), place, 0]);
                if planted(Fault::RefusedText) {
                    self.texts.push(b'?');
                }
            }
        }
    }

    fn write(&self, table: &mut [u32], output: &mut [u8]) {
        let cells = self.rows.concat();
        let (rows, behind) = table.split_at_mut(cells.len());
        rows.copy_from_slice(&cells);
        if planted(Fault::PastTable)
            && let Some(cell) = behind.first_mut()
        {
            *cell = 0;
        }
        let (texts, behind) = output.split_at_mut(self.texts.len());
        texts.copy_from_slice(&self.texts);
        if planted(Fault::PastTexts)
            && let Some(byte) = behind.first_mut()
        {
            *byte = 0;
        }
    }
}
