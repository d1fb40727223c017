//! The program `report`: its table beside the judge's.

use judge::{figures::report::output, generate};

use super::Tally;

/// What answers an input with a table; or says why it didn't.
pub type Answer = dyn Fn(&[u8]) -> Result<Vec<u8>, String>;

/// A generated input.
pub fn compare(tally: &mut Tally, seed: u64, index: u64) {
    compare_with(tally, &crate::report, seed, index);
}

/// A generated input, answered by anything.
pub fn compare_with(
    tally: &mut Tally,
    answer: &Answer,
    seed: u64,
    index: u64,
) {
    let input = generate::report_input(seed, index);
    let due = output(&input);
    tally.count("reports", 0);
    for number in refused(&due) {
        tally.count("files of reports", number);
    }
    match answer(&input) {
        Ok(table) => {
            tally.expect_bytes("table", due.as_bytes(), &table);
        }
        Err(why) => tally.differ(why),
    }
}

/// What refuses each file of a table, 0 for one that is counted.
fn refused(table: &str) -> impl Iterator<Item = u8> {
    let files = table.lines().filter(|line| {
        let first = line.split_whitespace().next();
        first.is_some_and(|cell| cell.parse::<u64>().is_ok())
    });
    files.map(|line| {
        let mut words = line.split_whitespace().skip(1);
        match words.next() {
            Some("refused") => {
                words.next().expect("a number").parse().expect("small")
            }
            _ => 0,
        }
    })
}
