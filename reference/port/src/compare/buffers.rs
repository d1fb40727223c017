//! Buffers with something in them, and when two stores hold the same.

use judge::rows::{self, Row};

/// The port's fixed words (crates/rows/src/words.rt).
pub const PORT_WORDS: &str = concat!(
    "filtermap const record enum fn test import -> let returnacceptreject",
    "match if while for  else  in  if  =>  =  +=  -=  *=  /=  %= :  ;,.?!-_",
    "()[]{}()f\"\"truefalse&&||==!=<<=>>=+*/%**",
);

/// Numbers that no legal row holds, so that a stray write shows.
pub fn junk_cells(count: usize) -> Vec<u32> {
    let place = |place: usize| 0xC0DE_0000 | (place as u32 & 0xFFFF);
    (0..count).map(place).collect()
}

/// Bytes that are no marks and, put together, no UTF-8.
pub fn junk_bytes(count: usize) -> Vec<u8> {
    (0..count).map(|place| 0xA0 | (place as u8 & 15)).collect()
}

/// The first cell in which stores differ. The start of a fixed word is the
/// port's to choose: there the words are compared.
pub fn first_difference(due: &[u32], got: &[u32]) -> Option<String> {
    if due == got {
        return None;
    }
    let rows = due.chunks(Row::CELLS).zip(got.chunks(Row::CELLS));
    let mut places = (0..).zip(rows);
    let found = places.find(|(_, (due, got))| !same_row(due, got));
    found.map(|(place, (due, got))| {
        format!("row {place}\n  due {due:?}\n  got {got:?}")
    })
}

fn same_row(due: &[u32], got: &[u32]) -> bool {
    if due == got {
        return true;
    }
    let [due, got] = [due, got].map(|cells| {
        let cells: Result<[u32; Row::CELLS], _> = cells.try_into();
        cells.ok().map(Row::from_cells)
    });
    let (Some(due), Some(got)) = (due, got) else {
        return false;
    };
    let moved = Row {
        start: due.start,
        ..got
    };
    let words = rows::fixed_words();
    moved == due
        && due.kind == rows::ASCII
        && due.origin == rows::WORDS
        && word(&words, &due).is_some()
        && word(&words, &due) == word(PORT_WORDS, &got)
}

fn word<'w>(words: &'w str, row: &Row) -> Option<&'w str> {
    let start = row.start as usize;
    words.get(start..start.checked_add(row.length as usize)?)
}
