//! Calls that write bytes into an output: with just enough room, with one
//! byte too few, with none and with room to spare.

use judge::refusal::{Refusal, refusal};

use super::{Tally, buffers::junk_bytes};

/// Bytes behind the output that no call is lent.
const BEHIND: usize = 8;
/// More room than is needed.
const SPARE: usize = 24;

/// Holds a call against what is due where there is room: its answer, and the
/// output whole.
pub fn compare(
    tally: &mut Tally,
    what: &str,
    due: &Result<Vec<u8>, Refusal>,
    call: impl Fn(&mut [u8]) -> Result<usize, Refusal>,
) {
    let needed = match due {
        Ok(bytes) => bytes.len(),
        Err(Refusal { number: 17, place }) => *place as usize,
        Err(_) => 0,
    };
    for room in [needed, needed.saturating_sub(1), 0, needed + SPARE] {
        let (answer, held) = in_room(due, room);
        let mut output = junk_bytes(room + BEHIND);
        let got = call(&mut output[..room]);
        let what = format!("{what}, room for {room}");
        if tally.expect(&what, &answer, &got) {
            tally.expect_bytes(&format!("{what}, output"), &held, &output);
        }
    }
}

/// The answer in an output of this size, and what it and the bytes behind it
/// hold then.
fn in_room(
    due: &Result<Vec<u8>, Refusal>,
    room: usize,
) -> (Result<usize, Refusal>, Vec<u8>) {
    let mut held = junk_bytes(room + BEHIND);
    let answer = match due {
        Ok(bytes) if bytes.len() > room => Err(refusal(17, bytes.len())),
        Ok(bytes) => {
            held[..bytes.len()].copy_from_slice(bytes);
            Ok(bytes.len())
        }
        Err(refusal) => Err(*refusal),
    };
    (answer, held)
}
