//! Shows the steps of an image: `steps FRAME`. Each line has the offset of a
//! step in the list, which is what a refusal names, and the step.
//!
//! A frame is a file's source and its tree, as in save.rs.

#[path = "common/frame.rs"]
mod frame;

use std::{env, error::Error, path::Path};

use frame::Frame;
use rrufthim::generator::{Step, steps};

fn main() -> Result<(), Box<dyn Error>> {
    let name = env::args().nth(1).ok_or("usage: steps FRAME")?;
    let frame = Frame::read(Path::new(&name))?;
    let mut offset = 0;
    let mut depth: usize = 0;
    for step in steps(frame.file())? {
        if step == Step::Close {
            depth -= 1;
        }
        println!("{offset:7}  {}{step}", "  ".repeat(depth));
        if matches!(step, Step::Open { .. }) {
            depth += 1;
        }
        offset += step.bytes();
    }
    Ok(())
}
