//! A generator of tables, which has neither a source nor a tree: constants
//! from a table, by steps.
//!
//! Names stand in the image as they are given. Literals don't: their text is
//! taken from the source by their spans. So the generator makes a source of
//! its literals, and keeps it with the image.

use std::error::Error;

use rrufthim::{
    File, Formatter, NO_SPAN, Refusal, Span,
    generator::{Builder, explain},
    kind, reads_back,
};

const TABLE: [(&str, &str); 3] =
    [("BASE", "120"), ("SURCHARGE", "7"), ("MEMBERS", "0xFF")];

fn main() -> Result<(), Box<dyn Error>> {
    let mut source = String::new();
    let mut builder = Builder::new();
    builder.open(kind::TREE, NO_SPAN)?.absent()?; // no shebang
    for (name, value) in TABLE {
        constant(&mut builder, name, literal(&mut source, value))?;
    }
    builder.close()?;
    let image = builder.finish()?;
    let file = File::new(&source, &image);
    // Before it is handed on: would the text be read back as this tree?
    reads_back(file)?;
    print!("{}", Formatter::new().format_file(file)?.text);
    show_a_fault()?;
    Ok(())
}

/// Adds a literal to the source, and says where it stands. A newline parts it
/// from the one before.
fn literal(source: &mut String, text: &str) -> Span {
    let start = source.len();
    source.push_str(text);
    let span = start..source.len();
    source.push('\n');
    span
}

/// `const NAME: u32 = LITERAL;`
fn constant(
    to: &mut Builder,
    name: &str,
    literal: Span,
) -> Result<(), Refusal> {
    to.open(kind::CONST, NO_SPAN)?;
    text(to, name)?;
    to.open(kind::TYPE_PATH, NO_SPAN)?
        .open(kind::PATH, NO_SPAN)?;
    text(to, "u32")?;
    to.close()?.absent()?.close()?; // the path, no type arguments, the type
    to.open(kind::LITERAL_EXPR, literal.clone())?;
    // 0: its text is what stands at its span.
    to.open(kind::LITERAL, literal)?.payload(0)?.close()?;
    to.close()?.close()?;
    Ok(())
}

fn text(to: &mut Builder, name: &str) -> Result<(), Refusal> {
    to.open(kind::TEXT, NO_SPAN)?;
    to.text(name, name.chars().count())?.close()?;
    Ok(())
}

/// A constant without its type: the writer names the step, and the words say
/// what was due there.
fn show_a_fault() -> Result<(), Refusal> {
    let mut builder = Builder::new();
    builder.open(kind::TREE, NO_SPAN)?.absent()?;
    builder.open(kind::CONST, NO_SPAN)?;
    text(&mut builder, "RATE")?;
    builder.open(kind::LITERAL_EXPR, NO_SPAN)?;
    if let Err(refusal @ Refusal::BadStep { at }) = builder.check() {
        println!("# {refusal}");
        println!("# {}", explain(builder.list(), at));
    }
    Ok(())
}
