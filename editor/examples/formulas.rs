//! For generators of tables: builds formulas from steps, asks of each whether
//! its text would be read back as the tree that was built, and prints text and
//! answer; then the same with parentheses where they are missing.

use std::{error::Error, fmt::Write};

use rrufthim::{
    File, Formatter, NO_SPAN, ReadBackError, Refusal,
    ast::BinOp::{self, Add, Mul},
    generator::Builder,
    kind, reads_back,
};

/// What this generator makes of a rate.
pub enum Formula {
    Name(&'static str),
    Operation(Box<Formula>, BinOp, Box<Formula>),
    /// In parentheses, which are a record of their own.
    Parentheses(Box<Formula>),
}

use Formula::{Name, Operation, Parentheses};

fn main() -> Result<(), Box<dyn Error>> {
    print!("{}", report()?);
    Ok(())
}

/// The text of each formula, and what is said of its tree.
///
/// # Errors
///
/// Those of builder and formatter.
pub fn report() -> Result<String, Box<dyn Error>> {
    let mut out = String::new();
    let mut formatter = Formatter::new();
    for (name, formula) in [
        ("plain", product(sum())),
        ("grouped", product(Parentheses(sum().into()))),
    ] {
        let image = image(name, &formula)?;
        let file = File::new("", &image); // a generator has no source
        write!(out, "{}", formatter.format_file(file)?.text)?;
        match reads_back(file) {
            Ok(()) => out += "  is read back the same\n",
            Err(ReadBackError::Differs(operand)) => {
                writeln!(out, "  is read back differently: {operand}")?;
            }
            Err(refused) => return Err(refused.into()),
        }
    }
    Ok(out)
}

fn sum() -> Formula {
    Operation(Name("rate").into(), Add, Name("surcharge").into())
}

fn product(right: Formula) -> Formula {
    Operation(Name("base").into(), Mul, right.into())
}

/// `const NAME: u32 = FORMULA;`
fn image(name: &str, formula: &Formula) -> Result<Vec<u8>, Refusal> {
    let mut builder = Builder::new();
    builder.open(kind::TREE, NO_SPAN)?.absent()?; // no shebang
    builder.open(kind::CONST, NO_SPAN)?;
    text(&mut builder, name)?;
    builder.open(kind::TYPE_PATH, NO_SPAN)?;
    path(&mut builder, "u32")?;
    builder.absent()?.close()?; // no parameters
    put(&mut builder, formula)?;
    builder.close()?.close()?; // the constant, the tree
    builder.finish()
}

fn put(builder: &mut Builder, formula: &Formula) -> Result<(), Refusal> {
    match formula {
        Name(name) => {
            builder.open(kind::PATH_EXPR, NO_SPAN)?;
            path(builder, name)?;
        }
        Operation(left, operator, right) => {
            builder.open(kind::BIN_OP, NO_SPAN)?;
            put(builder, left)?;
            builder.open(kind::OPERATOR, NO_SPAN)?;
            builder.payload(*operator as u8)?.close()?;
            put(builder, right)?;
        }
        Parentheses(inner) => {
            builder.open(kind::PARENTHESES, NO_SPAN)?;
            put(builder, inner)?;
        }
    }
    builder.close()?;
    Ok(())
}

fn path(builder: &mut Builder, name: &str) -> Result<(), Refusal> {
    builder.open(kind::PATH, NO_SPAN)?;
    text(builder, name)?;
    builder.close()?;
    Ok(())
}

/// A name of ASCII: a column for each byte.
fn text(builder: &mut Builder, name: &str) -> Result<(), Refusal> {
    builder.open(kind::TEXT, NO_SPAN)?.text(name, name.len())?;
    builder.close()?;
    Ok(())
}
