//! The exported functions as crates/exports_c, src/linked.rs and the header
//! declare them: symbols and parameters, read from the text.

use std::{fs, path::Path};

pub const HEADER: &str = include_str!("../../include/rrufthim.h");
pub const LINKED: &str = include_str!("../../src/linked.rs");

/// What stands before each function, in Rattle.
const EXPORT: &str = "pub extern \"C\" fn ";

/// A function's symbol with its parameters: a slice as a pointer and a length,
/// an array as a pointer.
pub type Function = (String, Vec<String>);

/// All files of crates/exports_c/src.
pub fn exports() -> String {
    let here = Path::new(env!("CARGO_MANIFEST_DIR"));
    let folder = here.join("../crates/exports_c/src");
    let inner = fs::read_dir(folder).expect("a folder");
    let paths = inner.map(|one| one.expect("a name").path());
    let texts = paths.map(|path| fs::read_to_string(path).expect("a file"));
    texts.collect()
}

/// The functions that follow these words, each parameter turned into others,
/// by their names.
fn functions(
    text: &str,
    words: &str,
    turn: impl Fn(&str) -> Vec<String>,
) -> Vec<Function> {
    let mut found = Vec::new();
    for part in text.split(words).skip(1) {
        let (name, rest) = part.split_once('(').expect("parameters");
        let (parameters, _) = rest.split_once(')').expect("their end");
        let parameters = parameters.split(',').map(spaced);
        let parameters = parameters.filter(|one| !one.is_empty());
        let turned = parameters.flat_map(|one| turn(&one)).collect();
        found.push((spaced(name), turned));
    }
    found.sort();
    found
}

/// One space in place of many.
fn spaced(text: &str) -> String {
    text.split_whitespace().collect::<Vec<_>>().join(" ")
}

/// The functions of src/linked.rs, by the symbols that its macros give them.
pub fn linked(text: &str) -> Vec<Function> {
    let (_, shape) = text.split_once("macro_rules! shape").expect("it");
    let number = shape.split(['{', '}']).nth(2).expect("a number").trim();
    let mut found = functions(text, "\n    fn ", pointers);
    for (name, _) in &mut found {
        *name = format!("rrufthim_{name}_s{number}");
    }
    found.sort();
    found
}

/// The functions of crates/exports_c as they are written there.
pub fn signatures(text: &str) -> Vec<Function> {
    functions(text, EXPORT, |one| vec![one.to_owned()])
}

/// The same as pointers and lengths.
pub fn exported(text: &str) -> Vec<Function> {
    functions(text, EXPORT, pointers)
}

/// A parameter as one or two: a slice as a pointer and a length, an array as
/// a pointer.
fn pointers(parameter: &str) -> Vec<String> {
    let (name, kind) = parameter.split_once(": ").expect("a kind");
    let (pointer, lent) = match kind.strip_prefix('&') {
        None => return vec![parameter.to_owned()],
        Some(lent) => match lent.strip_prefix("mut ") {
            Some(lent) => ("*mut", lent),
            None => ("*const", lent),
        },
    };
    if lent.contains(';') {
        return vec![format!("{name}: {pointer} {lent}")];
    }
    let element = lent.trim_matches(['[', ']']);
    vec![
        format!("{name}: {pointer} {element}"),
        format!("{name}_len: usize"),
    ]
}

/// The prototypes of a header, its constants put in, by the symbols that its
/// macros give them.
pub fn declared(header: &str) -> Vec<Function> {
    let mut text = without_comments(header);
    let mut shape = None;
    for (name, value) in constants(header) {
        text = text.replace(&format!("[{name}]"), &format!("[{value}]"));
        if name == "RRUFTHIM_SHAPE" {
            shape = Some(value);
        }
    }
    let mut found = functions(&text, "void ", |one| vec![from_c(one)]);
    for (name, _) in &mut found {
        let given = format!("#define {name} RRUFTHIM_SYMBOL(");
        let given = text.split_once(&given).and_then(|(_, rest)| {
            rest.split_once(')').map(|(given, _)| given.to_owned())
        });
        if let (Some(given), Some(shape)) = (given, shape) {
            *name = format!("rrufthim_{given}_s{shape}");
        }
    }
    found.sort();
    found
}

/// The functions of rrufthim_null.h, which stand before these.
pub fn wrapped(header: &str) -> Vec<Function> {
    let text = without_comments(header);
    let parts = constants(HEADER).into_iter();
    let text = parts.fold(text, |text, (name, value)| {
        text.replace(&format!("[{name}]"), &format!("[{value}]"))
    });
    functions(&text, "static inline void ", |one| vec![from_c(one)])
}

fn from_c(parameter: &str) -> String {
    let (pointer, rest) = match parameter.strip_prefix("const ") {
        Some(rest) => ("*const", rest),
        None => ("*mut", parameter),
    };
    let (kind, name) = rest.split_once(' ').expect("a name");
    let kind = match kind {
        "uint8_t" => "u8",
        "uint32_t" => "u32",
        "uint64_t" => "u64",
        "size_t" => "usize",
        other => other,
    };
    if let Some(name) = name.strip_prefix('*') {
        format!("{name}: {pointer} {kind}")
    } else if let Some((name, size)) = name.split_once('[') {
        let size = size.trim_end_matches(']');
        format!("{name}: {pointer} [{kind}; {size}]")
    } else {
        format!("{name}: {kind}")
    }
}

fn without_comments(text: &str) -> String {
    let mut parts = text.split("/*");
    let mut out = parts.next().unwrap_or("").to_owned();
    for part in parts {
        out += part.split_once("*/").expect("a comment's end").1;
    }
    out
}

/// Names and values of the header's constants, in order.
pub fn constants(header: &str) -> Vec<(String, usize)> {
    let text = without_comments(header);
    let lines = text.lines().filter_map(|line| {
        let (name, value) = line.strip_prefix("#define ")?.split_once(' ')?;
        Some((name.to_owned(), value.trim().parse().ok()?))
    });
    lines.collect()
}

/// The header's constants for refusals, each with the comment behind it.
pub fn refusals(header: &str) -> Vec<(String, usize, String)> {
    let (_, part) = header.split_once("/* Refusals: ").expect("there");
    let (part, _) = part.split_once("\n\n").expect("their end");
    let lines = part.split("#define ").skip(1).map(|one| {
        let (constant, rest) = one.split_once("/*").expect("a comment");
        let (comment, _) = rest.split_once("*/").expect("its end");
        let (name, value) = constant.split_once(' ').expect("a value");
        let number = value.trim().parse().expect("a number");
        (name.to_owned(), number, spaced(comment))
    });
    lines.collect()
}
