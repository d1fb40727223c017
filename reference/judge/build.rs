//! Copies fmt.rs with the edits that README.md lists: the greatest value of
//! `column` is kept, `fmt_parsed` asks for its `max` and for the mode that it
//! closes in, texts ask for the rule that they are measured by, `render_node`
//! notes what it enters, and a child module sees the private items that the judge drives. A second copy is as it
//! was, but for a last function that calls `fmt_parsed`.

use std::{env, fs, path::PathBuf};

/// Stands behind each line that sets `column`. The build for timing leaves
/// it out.
const KEPT: &str = "#[cfg(debug_assertions)] \
    { self.greatest = self.greatest.max(self.column); }\n";
/// How many lines of fmt.rs set `column`.
const SET: usize = 5;

/// Stands behind the head of `render_node`, whose body becomes that of a
/// function of its own.
const NOTED: &str = "
        #[cfg(debug_assertions)]
        let note = driver::enter(self, node, wrap);
        self.render_entered(node, wrap);
        #[cfg(debug_assertions)]
        driver::leave(self, note);
    }

    #[inline(always)]
    fn render_entered(&mut self, node: &Node, wrap: bool) {
";
/// Stands before a `Call` whose arguments trail is rendered.
const TRAILS: &str = "#[cfg(debug_assertions)] driver::trails(self); ";

/// Stands behind the last line of the copy that isn't edited.
const UNEDITED: &str = "
pub fn format(input: &crate::tree::Input) -> String {
    fmt_parsed(&input.ast, &input.files, &input.spans, &input.extras)
}
";

fn main() {
    let here = PathBuf::from(env::var("CARGO_MANIFEST_DIR").unwrap());
    let out = PathBuf::from(env::var("OUT_DIR").unwrap());
    let original = here.join("../roto/src/fmt.rs");
    let driver = here.join("src/driver/mod.rs");
    println!("cargo::rerun-if-changed={}", original.display());

    let plain = fs::read_to_string(&original).expect("fmt.rs is there");
    let text = with_foot(&with_max(&with_greatest(&plain)));
    let mut text = with_notes(&with_rule(&text));
    text.push_str(&format!("#[path = {driver:?}] pub mod driver;\n"));
    let copies = [("fmt", text), ("unedited", plain + UNEDITED)];

    // `#[path]` takes a literal alone, so the declarations are generated too.
    let mut declarations = String::new();
    for (name, text) in copies {
        let copy = out.join(format!("{name}.rs"));
        fs::write(&copy, text).expect("the copy can be written");
        declarations.push_str(&format!(
            "#[allow(dead_code)] #[path = {copy:?}] mod {name};\n"
        ));
    }
    fs::write(out.join("declare_fmt.rs"), declarations)
        .expect("the declarations can be written");
}

/// What a text measures is asked of the judge, which is handed what the
/// original has there: where a `Str` is made, and twice for an `Ascii`.
fn with_rule(text: &str) -> String {
    let edits = [
        (
            "let width = x.width();",
            "let width = driver::measure(x, x.width());",
        ),
        (
            "Node::Ascii(s) => s.len(),",
            "Node::Ascii(s) => driver::measure(s, s.len()),",
        ),
        (
            "Node::Ascii(s) => self.text(s, s.len()),",
            "Node::Ascii(s) => self.text(s, driver::measure(s, s.len())),",
        ),
    ];
    let edit = |text: String, (line, edited): (&str, &str)| {
        assert_eq!(text.matches(line).count(), 1, "{line}");
        text.replace(line, edited)
    };
    edits.into_iter().fold(text.into(), edit)
}

/// What stands in `Renderer` is noted as `render_node` enters a node and is
/// done with it, and at a `Call` whether its arguments trail. The build for
/// timing leaves this out.
fn with_notes(text: &str) -> String {
    let text =
        once(text, "    column: usize,\n", "    notes: driver::Notes,\n");
    let none = "        notes: driver::Notes::default(),\n";
    let text = once(&text, "        column: 0,\n", none);
    let head = "    fn render_node(&mut self, node: &Node, wrap: bool) {\n";
    assert_eq!(text.matches(head).count(), 1, "{head}");
    let text = text.replace(head, &format!("{head}{NOTED}"));
    let trailing =
        "self.render_node(&Node::Group(*idx_e, e.clone()), false);";
    assert_eq!(text.matches(trailing).count(), 1, "{trailing}");
    text.replace(trailing, &format!("{TRAILS}{trailing}"))
}

/// `max` is a number that the judge sets, 80 unless it does.
fn with_max(text: &str) -> String {
    let line = "        max: 80,\n";
    assert_eq!(text.matches(line).count(), 1, "{line}");
    text.replace(line, "        max: driver::width(),\n")
}

/// Before the final `Line` the waiting comments are placed, if the judge sets
/// the new mode: document 02, 4, in the original's own words.
fn with_foot(text: &str) -> String {
    let line = "\n    state.push(Node::Line);\n";
    let foot = "\n    if driver::keeps_all() { \
        let length = source.files[0].contents.len(); \
        let leading = !ast.declarations.is_empty(); \
        state.pop_whitespace(length, leading, false, false); }";
    assert_eq!(text.matches(line).count(), 1, "{line}");
    text.replace(line, &format!("{foot}{line}"))
}

/// A field of `Renderer` more, and the line that keeps it behind each that
/// sets `column`.
fn with_greatest(text: &str) -> String {
    let text = once(text, "    column: usize,\n", "    greatest: usize,\n");
    let text = once(&text, "        column: 0,\n", "        greatest: 0,\n");
    let sets = |line: &str| {
        let line = line.trim_start();
        line.starts_with("self.column = ")
            || line.starts_with("self.column += ")
    };
    let lines: Vec<&str> = text.split_inclusive('\n').collect();
    let set = lines.iter().filter(|line| sets(line)).count();
    assert_eq!(set, SET, "the lines of fmt.rs that set `column`");
    let kept = |line| if sets(line) { KEPT } else { "" };
    lines.iter().flat_map(|line| [line, kept(line)]).collect()
}

/// A line behind the one of the text that is this.
fn once(text: &str, line: &str, behind: &str) -> String {
    assert_eq!(text.matches(line).count(), 1, "{line}");
    text.replace(line, &format!("{line}{behind}"))
}
