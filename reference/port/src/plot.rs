//! A picture of speed.csv: the time of each step beside the original's.

use std::fmt::Write;

const WIDTH: f64 = 900.0;
const LEFT: f64 = 400.0;
const ROW: f64 = 22.0;
/// What the scale begins with, in ns.
const LEAST: f64 = 0.1;
/// What is between the end of the scale and that of the picture.
const RIGHT: f64 = 60.0;
const HEADS: &str = "step,input,size,unit,port_seconds,rust_seconds";
const PORT: &str = "#2a6fb0";
const RUST: &str = "#d08a2e";

/// A line of the table: what was measured, and both times, in ns a unit.
struct Line {
    name: String,
    port: f64,
    rust: f64,
}

/// The picture of a table.
///
/// # Errors
///
/// A table without a line, of another kind, or with a line that isn't read.
pub fn draw(table: &str) -> Result<String, String> {
    let (heads, rest) = table.split_once('\n').unwrap_or((table, ""));
    if !heads.starts_with(HEADS) {
        return Err(format!("no table of times: it doesn't begin {HEADS}"));
    }
    let mut lines = Vec::new();
    for (at, text) in rest.lines().enumerate() {
        let line = read(text);
        let line =
            line.ok_or(format!("line {} isn't read: {text}", at + 2))?;
        lines.push(line);
    }
    match lines.is_empty() {
        true => Err("the table has no line".into()),
        false => Ok(svg(&lines)),
    }
}

/// `step,input,size,unit,port seconds,rust seconds`, and what follows.
fn read(line: &str) -> Option<Line> {
    let mut fields = fields(line).into_iter();
    let (step, input) = (fields.next()?, fields.next()?);
    let size: f64 = fields.next()?.parse().ok()?;
    let unit = fields.next()?;
    let port: f64 = fields.next()?.parse().ok()?;
    let rust: f64 = fields.next()?.parse().ok()?;
    let times = [size, port, rust];
    times
        .iter()
        .all(|it| it.is_finite() && *it > 0.0)
        .then(|| Line {
            name: format!("{step}, {input}, {size} {unit}s"),
            port: port * 1e9 / size,
            rust: rust * 1e9 / size,
        })
}

/// The fields of a line; a field in quotes may hold commas.
fn fields(line: &str) -> Vec<String> {
    let mut fields = vec![String::new()];
    let mut quoted = false;
    for c in line.chars() {
        match c {
            '"' => quoted = !quoted,
            ',' if !quoted => fields.push(String::new()),
            c => fields.last_mut().expect("never empty").push(c),
        }
    }
    fields
}

/// Powers of ten, from the least to the first that no time is over.
fn scale(lines: &[Line]) -> Vec<f64> {
    let times = lines.iter().flat_map(|line| [line.port, line.rust]);
    let most = times.fold(LEAST, f64::max);
    let mut scale = vec![LEAST, LEAST * 10.0];
    while let Some(last) = scale.last().copied().filter(|it| *it < most) {
        scale.push(last * 10.0);
    }
    scale
}

/// Two bars a line, on the scale.
fn svg(lines: &[Line]) -> String {
    let height = ROW * (lines.len() as f64 + 3.0);
    let scale = scale(lines);
    let decades = scale.len() as f64 - 1.0;
    let mut out = format!(
        "<svg xmlns=\"http://www.w3.org/2000/svg\" width=\"{WIDTH}\" \
         height=\"{height}\" font-family=\"sans-serif\" font-size=\"11\">\n\
         <rect width=\"100%\" height=\"100%\" fill=\"white\"/>\n"
    );
    for time in &scale {
        let x = place(*time, decades);
        let _ = writeln!(
            out,
            "<line x1=\"{x:.1}\" y1=\"{ROW}\" x2=\"{x:.1}\" y2=\"{height}\" \
             stroke=\"#ddd\"/><text x=\"{x:.1}\" y=\"14\">{} ns</text>",
            shown(*time)
        );
    }
    for (index, line) in lines.iter().enumerate() {
        let y = ROW * (index as f64 + 1.5);
        bars(&mut out, y, line, decades);
    }
    let y = height - 8.0;
    let _ = writeln!(
        out,
        "<text x=\"4\" y=\"{y}\" fill=\"{PORT}\">port</text>\
         <text x=\"44\" y=\"{y}\" fill=\"{RUST}\">original Rust (check, moves \
         and reads back: the judge)</text>\n</svg>"
    );
    out
}

/// A line's name, and a bar for each of its times.
fn bars(out: &mut String, y: f64, line: &Line, decades: f64) {
    let name = escaped(&line.name);
    let _ = writeln!(out, "<text x=\"4\" y=\"{}\">{name}</text>", y + 12.0);
    for (y, time, colour) in
        [(y, line.port, PORT), (y + 8.0, line.rust, RUST)]
    {
        let width = place(time, decades) - LEFT;
        let _ = writeln!(
            out,
            "<rect x=\"{LEFT}\" y=\"{y}\" width=\"{width:.1}\" \
             height=\"7\" fill=\"{colour}\"/>"
        );
    }
}

/// Where a time stands.
fn place(time: f64, decades: f64) -> f64 {
    let part = (time.max(LEAST) / LEAST).log10() / decades;
    LEFT + part * (WIDTH - LEFT - RIGHT)
}

/// A power of ten, with commas.
fn shown(time: f64) -> String {
    if time < 1.0 {
        return format!("{time:.1}");
    }
    let digits = format!("{time:.0}");
    let mut out = String::new();
    for (at, digit) in digits.chars().enumerate() {
        if at > 0 && (digits.len() - at).is_multiple_of(3) {
            out.push(',');
        }
        out.push(digit);
    }
    out
}

fn escaped(text: &str) -> String {
    let text = text.replace('&', "&amp;");
    text.replace('<', "&lt;").replace('>', "&gt;")
}
