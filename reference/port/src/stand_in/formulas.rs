//! Images of small formulas: the judge's, wrong where a fault on them is
//! planted.

use judge::{
    formulas::{self, COUNTS, Formula, MOST, of_size},
    refusal::{Refusal, refusal},
};

use super::{Fault, planted, put, put_refusal};

/// The place of the version, and that of the width of `c`: behind the header,
/// the count of comments, the tree's head, the absent shebang, and two heads.
const VERSION: usize = 0;
const WIDTH: usize = 5 + 2 + 13 + 4 + 13 + 13;

pub fn formula(size: u64, place: u64, output: &mut [u8], out: &mut [u64; 2]) {
    let [size, place] = [size as usize, place as usize];
    match written(size, place, output.len()) {
        Ok(mut image) => {
            spoil(&mut image);
            output[..image.len()].copy_from_slice(&image);
            put(out, &[0, image.len() as u64]);
            if planted(Fault::PastFormula)
                && let Some(byte) = output.get_mut(image.len())
            {
                *byte = 0;
            }
        }
        Err(mut refused) => {
            if refused.number == 17 {
                refused.place += u64::from(planted(Fault::FormulaNeeded));
                if planted(Fault::FormulaBeforeRefusal)
                    && let Some(byte) = output.first_mut()
                {
                    *byte = 1;
                }
            }
            put_refusal(out, refused);
        }
    }
}

/// The image of the formula that a fault finds at a place.
fn written(
    size: usize,
    place: usize,
    room: usize,
) -> Result<Vec<u8>, Refusal> {
    if planted(Fault::FormulaRoomFirst) && room == 0 {
        return Err(refusal(17, 0));
    }
    if planted(Fault::SizeInFourBytes) && size > u32::MAX as usize {
        return written(size & u32::MAX as usize, place, room);
    }
    if planted(Fault::SizeNone) && size == 0 {
        return formulas::write(1, place, room);
    }
    if !(1..=MOST).contains(&size) {
        return formulas::write(size, place, room);
    }
    let count = COUNTS[size - 1];
    if planted(Fault::PlaceAtCount) && place == count {
        return formulas::write(size, count - 1, room);
    }
    if planted(Fault::PlaceRefused) && place >= count {
        return Err(refusal(24, place));
    }
    let Some(formula) = found(size, place) else {
        return formulas::write(size, place, room);
    };
    let image = formulas::image(formula);
    match image.len() <= room {
        true => Ok(image),
        false => Err(refusal(17, image.len())),
    }
}

/// That of another order where one is planted.
fn found(size: usize, place: usize) -> Option<&'static Formula> {
    let all = of_size(size);
    let mut order: Vec<&Formula> = all.iter().collect();
    if planted(Fault::TimesFirst) {
        order.sort_by_key(|one| matches!(one, Formula::Plus(..)));
    } else if planted(Fault::ParenthesesFirst) {
        order.sort_by_key(|one| match one {
            Formula::Negation(_) => 2,
            Formula::Parentheses(_) => 1,
            _ => 0,
        });
    } else if planted(Fault::LargerFirst) {
        order.sort_by_key(|one| match one {
            Formula::Plus(left, _) => (0, size - left.size()),
            Formula::Times(left, _) => (1, size - left.size()),
            _ => (2, 0),
        });
    } else if planted(Fault::LastFormulaTwice) && size == MOST {
        let last = order.len() - 1;
        order[last] = order[last - 1];
    }
    order.get(place).copied()
}

fn spoil(image: &mut [u8]) {
    if planted(Fault::FormulaOfTwo) {
        image[VERSION] = 2;
    }
    if planted(Fault::NoWidth) {
        image[WIDTH + 1] = 0;
    }
}
