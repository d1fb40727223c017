//! A readable account of a run.

use std::fmt::Write;

use crate::{
    driver::{Run, Stop},
    program::{self, Widths},
    rows::{self, Row},
};

/// All that the judge knows of a frame.
pub fn explain(bytes: &[u8], widths: Widths) -> String {
    match program::answer(bytes, widths) {
        Err(refusal) => format!("{refusal}\n"),
        Ok(run) => account(&run),
    }
}

fn account(run: &Run) -> String {
    let mut out = String::new();
    let marks: String =
        run.marks.iter().map(|m| char::from(b'0' + m)).collect();
    writeln!(out, "rows {}", run.rows.len()).unwrap();
    for (place, row) in run.rows.iter().enumerate() {
        writeln!(out, "{}", row_line(place, row)).unwrap();
    }
    writeln!(out, "marks {} {marks}", run.marks.len()).unwrap();
    for (place, stop) in run.stops.iter().enumerate() {
        writeln!(out, "before declaration {place}: {}", stop_line(stop))
            .unwrap();
    }
    writeln!(out, "closed: {}", stop_line(&run.closed)).unwrap();
    writeln!(out, "comments left {}", run.comments_left).unwrap();
    writeln!(out, "rendering ends with {:?}", run.pen).unwrap();
    writeln!(out, "text, {} bytes:", run.text.len()).unwrap();
    out + &run.text
}

fn row_line(place: usize, row: &Row) -> String {
    let name = rows::KIND_NAMES[row.kind as usize];
    let cells = row.cells().map(|cell| cell.to_string()).join(" ");
    format!("{place:5} {name:12} {cells}")
}

fn stop_line(stop: &Stop) -> String {
    format!(
        "next row {}, next number {}, comments placed {}, position {}",
        stop.next_row, stop.next_number, stop.comments_placed, stop.position
    )
}
