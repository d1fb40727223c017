//! The port's programs, run on an input.

use std::{
    io::{self, Write},
    path::Path,
    process::{Child, Command, Output, Stdio},
    thread,
};

/// What a program writes for an input, and how it ends.
pub fn run(program: impl AsRef<Path>, input: &[u8]) -> io::Result<Output> {
    let mut child = Command::new(program.as_ref())
        .stdin(Stdio::piped())
        .stdout(Stdio::piped())
        .stderr(Stdio::piped())
        .spawn()?;
    // A program may write before it has read all.
    thread::scope(|scope| {
        let stdin = child.stdin.take();
        scope.spawn(move || feed(stdin, input));
        wait(child)
    })
}

/// A program that reads no further than it must may close its input.
fn feed(stdin: Option<impl Write>, input: &[u8]) {
    if let Some(mut stdin) = stdin {
        let _ = stdin.write_all(input);
    }
}

fn wait(child: Child) -> io::Result<Output> {
    child.wait_with_output()
}

/// What a program writes where it ends well and says nothing on its standard
/// error; else what is wrong.
pub fn written(
    program: impl AsRef<Path>,
    input: &[u8],
) -> Result<Vec<u8>, String> {
    let name = program.as_ref().display().to_string();
    let output =
        run(program, input).map_err(|error| format!("{name}: {error}"))?;
    match output.status.success() && output.stderr.is_empty() {
        true => Ok(output.stdout),
        false => Err(format!("{name}: {output:?}")),
    }
}
