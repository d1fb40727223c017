//! Batches: the port's beside the judge's, and beside single calls of the
//! port, in tables and outputs of several sizes.

use judge::{
    batch::{self, Batched, ROW},
    calls::Given,
    choice::Choice,
    contents::Contents,
    frame::Frame,
    generate::{self, BatchCase},
    refusal::Refusal,
};

use super::{
    Tally,
    buffers::{junk_bytes, junk_cells},
    texts,
};
use crate::Batched as Answer;

/// Numbers and bytes behind table and output that no call is lent.
const BEHIND: usize = 8;
/// More than is needed.
const SPARE: usize = 24;

/// A generated batch.
pub fn compare(tally: &mut Tally, seed: u64, index: u64) {
    compare_case(tally, "batches", &generate::batch_case(seed, index));
}

/// One of the fixed list.
pub fn compare_fixed(tally: &mut Tally, place: usize) {
    let case = &generate::fixed_batches()[place];
    compare_case(tally, "batches, fixed list", &case.batch);
}

pub(super) fn compare_case(
    tally: &mut Tally,
    heading: &str,
    case: &BatchCase,
) {
    let BatchCase { buffer, choice } = case;
    let all = usize::MAX;
    let due = batch::batch(buffer, *choice, all, all);
    match batch::split(buffer) {
        Ok(files) => {
            let due = due.expect("room for all");
            tally.count(heading, 0);
            let says = compare_files(tally, heading, &files, *choice, &due);
            for lent in rooms(&due) {
                compare_room(tally, case, &due, &says, lent);
            }
        }
        Err(fault) => {
            let refusal = due.expect_err("refused");
            let cause = fault.cause.name();
            tally.count(&format!("{heading}, {cause}"), refusal.number);
            for size in [0, 2 * ROW * batch::MOST_FILES] {
                let held = Lent::new(size, size);
                held.compare(tally, case, Err(refusal), &[], [size; 2]);
            }
        }
    }
}

/// Just enough of both; one too few of either; none of either, or of both;
/// and more than enough.
fn rooms(due: &Batched) -> [[usize; 2]; 8] {
    let [cells, room] = [due.table.len(), due.texts.len()];
    let less = |size: usize| size.saturating_sub(1);
    [
        [cells, room],
        [less(cells), room],
        [less(cells), less(room)],
        [cells, less(room)],
        [0, room],
        [cells, 0],
        [0, 0],
        [cells + SPARE, room + SPARE],
    ]
}

/// What a file says, and how many comments its single call left.
type Says<'f> = Option<(Contents<'f>, usize)>;

/// Each row and text of the judge's against the port's single calls, and what
/// the files say.
fn compare_files<'f>(
    tally: &mut Tally,
    heading: &str,
    files: &[Frame<'f>],
    choice: Choice,
    due: &Batched,
) -> Vec<Says<'f>> {
    let mut texts = &due.texts[..];
    let mut says = Vec::new();
    for (file, row) in files.iter().zip(due.table.chunks(ROW)) {
        tally.count(&format!("{heading}, files"), row[0] as u8);
        let (text, behind) = texts.split_at(row[2] as usize);
        texts = behind;
        let Frame { source, image } = *file;
        let mut output = junk_bytes(text.len());
        let given = Given { source, image };
        let answer = crate::format(given, choice, &mut output);
        let got = match answer {
            Ok(single) => [0, 0, single.bytes],
            Err(Refusal { number, place }) => [number.into(), place, 0],
        };
        says.push(answer.ok().and_then(|single| {
            let contents = texts::contents(*file)?;
            let left = (choice.mode, single.comments_left as usize);
            let written = &output[..output.len().min(single.bytes as usize)];
            let (judged, port) = (texts::JUDGED_BATCHES, texts::SINGLES);
            texts::expect_file(tally, judged, &contents, left, text);
            texts::expect_file(tally, port, &contents, left, written);
            Some((contents, left.1))
        }));
        let due: Vec<u64> = row.iter().map(|n| u64::from(*n)).collect();
        if tally.expect("a single call", &due, &got.to_vec()) && row[0] == 0 {
            tally.expect_bytes("a single call's text", text, &output);
        }
    }
    says
}

/// The texts of a batch of the port, as its table has them.
fn expect_texts(
    tally: &mut Tally,
    mode: usize,
    says: &[Says],
    table: &[u32],
    output: &[u8],
) {
    let mut texts = output;
    for (says, row) in says.iter().zip(table.chunks(ROW)) {
        let size = texts.len().min(row[2] as usize);
        let (text, behind) = texts.split_at(size);
        texts = behind;
        if let (Some((contents, left)), 0) = (says, row[0]) {
            let left = (mode, *left);
            texts::expect_file(tally, texts::BATCHES, contents, left, text);
        }
    }
}

/// The port's batch in a table and an output of these sizes: the answer, and
/// both of them whole.
fn compare_room(
    tally: &mut Tally,
    case: &BatchCase,
    due: &Batched,
    says: &[Says],
    [cells, room]: [usize; 2],
) {
    let mut held = Lent::new(cells, room);
    let answer = due.has_room(cells, room).map(|()| {
        held.table[..due.table.len()].copy_from_slice(&due.table);
        held.output[..due.texts.len()].copy_from_slice(&due.texts);
        Answer {
            files: due.files() as u64,
            bytes: due.texts.len() as u64,
        }
    });
    held.compare(tally, case, answer, says, [cells, room]);
}

/// A table and an output with something in them, and more behind.
struct Lent {
    table: Vec<u32>,
    output: Vec<u8>,
}

impl Lent {
    fn new(cells: usize, room: usize) -> Self {
        Lent {
            table: junk_cells(cells + BEHIND),
            output: junk_bytes(room + BEHIND),
        }
    }

    /// Holds the port's batch against its answer, and what it leaves against
    /// these.
    fn compare(
        &self,
        tally: &mut Tally,
        case: &BatchCase,
        answer: Result<Answer, Refusal>,
        says: &[Says],
        [cells, room]: [usize; 2],
    ) {
        let Lent {
            mut table,
            mut output,
        } = Lent::new(cells, room);
        let BatchCase { buffer, choice } = case;
        let got = crate::batch(
            buffer,
            *choice,
            &mut table[..cells],
            &mut output[..room],
        );
        if got.is_ok() {
            let texts = &output[..room];
            expect_texts(tally, choice.mode, says, &table[..cells], texts);
        }
        let number = answer.err().map_or(0, |refusal| refusal.number);
        tally.count("batches in rooms", number);
        let what = format!("a table of {cells}, room for {room}");
        if !tally.expect(&what, &answer, &got) {
            return;
        }
        let bytes = |table: &[u32]| -> Vec<u8> {
            table.iter().flat_map(|cell| cell.to_be_bytes()).collect()
        };
        let [due, held] = [&self.table, &table].map(|table| bytes(table));
        tally.expect_bytes(&format!("{what}: the table"), &due, &held);
        let what = format!("{what}: the output");
        tally.expect_bytes(&what, &self.output, &output);
    }
}
