//! A file counted, in the judge's types.

use judge::{
    calls::Given,
    figures::{Counted, Figures, Fraction, Tallies},
    refusal::Refusal,
};

use crate::{Out, port};

/// The port's figures of a file, on top of tallies.
pub fn count(given: Given, tallies: &Tallies) -> Result<Counted, Refusal> {
    let mut out = Out::<19>::new();
    let Given { source, image } = given;
    port::count(source, image, &tallies_to_numbers(tallies), out.places());
    let answer = out.accepted::<17>()?;
    let figures = seven(&answer[..7]);
    let [files, all @ .., over, under] = &answer[7..] else {
        unreachable!("ten numbers");
    };
    Ok(Counted {
        figures,
        tallies: Tallies {
            files: *files,
            all: seven(all),
        },
        fraction: Fraction {
            over: *over,
            under: *under,
        },
    })
}

fn seven(numbers: &[u64]) -> Figures {
    Figures::from_numbers(numbers.try_into().expect("seven"))
}

/// Files, then the seven.
fn tallies_to_numbers(tallies: &Tallies) -> [u64; 8] {
    let mut numbers = [tallies.files; 8];
    numbers[1..].copy_from_slice(&tallies.all.numbers());
    numbers
}
