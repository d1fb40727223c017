//! Layout by each rule, lists of both kinds of calls, and what layout refuses.

use super::super::{CallCase, rules::ILLEGAL};
use crate::{
    allotment::ALL_ROWS,
    calls::{self, Call, Given, LayoutArgs, RenderArgs, World},
    driver::Run,
    frame,
    image::{self, node, text},
    mode::{NEW, OLD},
    program::{self, Widths},
    rows::Row,
    rule::{LEGAL, SUPPLIED, UNICODE_15_1, UNICODE_16_0},
    script,
    width::REFERENCE,
};

/// A shebang with blanks behind it, names and a literal of all widths.
const FILE: &str = "\
#!/割引\u{3000} \t
// 備考
const 割引: u32 = 1; // か\u{3099}
const e\u{301}: ﾊ = \"\u{4DC0}\u{302A}\"; // 終わり
";

/// A list of names that fits a line by Unicode 16.0 with so many letters in
/// its last name, and doesn't with one more.
fn names(letters: usize) -> String {
    let last = "x".repeat(letters);
    format!(
        "const 一覧: 型 = [火災保険料の割引率と割増率, 支払限度額, {last}];"
    )
}

/// The whole run of a file, as the original does it.
fn run(source: &str) -> Run {
    let bytes = script::frame(source).expect("a script");
    let frame = frame::split_any_size(&bytes).expect("a frame");
    program::format(frame, Widths::Supplied).expect("a script")
}

/// Calls on a file, with room for a row and a mark more than it takes.
fn on(source: &str, calls: Vec<Call>) -> CallCase {
    let bytes = script::frame(source).expect("a script");
    let frame = frame::split_any_size(&bytes).expect("a frame");
    let run = run(source);
    CallCase {
        source: frame.source.into(),
        image: frame.image.into(),
        world: World {
            store: vec![3; (run.rows.len() + 1) * Row::CELLS],
            marks: vec![9; run.marks.len() + 1],
            ..World::default()
        },
        calls,
    }
}

fn layout(rule: usize, stop: usize, close: bool) -> Call {
    Call::Layout(LayoutArgs {
        stop,
        close,
        mode: OLD,
        rule,
        archive: false,
    })
}

fn render(rule: usize, stop: usize) -> Call {
    super::render(rule, stop, 1_000)
}

/// What the calls of a case leave.
fn left(case: &CallCase) -> World {
    let CallCase {
        source,
        image,
        world,
        calls,
    } = case;
    let mut world = world.clone();
    calls::run(Given { source, image }, &mut world, calls);
    world
}

/// All of a file of one declaration, laid out by a rule and rendered by one.
fn whole(source: &str, laid: usize, shown: usize) -> CallCase {
    let all = run(source).rows.len();
    on(source, vec![layout(laid, 1, true), render(shown, all)])
}

/// All of the file by each rule, in one go and in pieces.
pub fn sums() -> Vec<CallCase> {
    let run = run(FILE);
    let [first, all] = [run.stops[1].next_row, run.rows.len()];
    let mut cases = Vec::new();
    for rule in LEGAL {
        let whole = vec![layout(rule, 2, true), render(rule, all)];
        cases.push(on(FILE, whole));
        let pieces = vec![
            layout(rule, 0, false),
            layout(rule, 1, false),
            render(rule, first),
            layout(rule, 2, false),
            layout(rule, 2, true),
            render(rule, all),
        ];
        cases.push(on(FILE, pieces));
    }
    cases
}

/// A list that ends at column 80 or would at 81, laid out and rendered by each
/// rule, and by two; and supplied widths that are no text's.
pub fn turning() -> Vec<CallCase> {
    let wraps = |letters: &usize| {
        let case = whole(&names(*letters), UNICODE_16_0, UNICODE_16_0);
        left(&case).text.split(|byte| *byte == b'\n').count() > 2
    };
    let wrapped = (1..REFERENCE).find(wraps).expect("a line is so long");
    let mut cases = Vec::new();
    for letters in [wrapped - 1, wrapped] {
        let file = names(letters);
        cases.extend(LEGAL.map(|rule| whole(&file, rule, rule)));
        cases.push(whole(&file, SUPPLIED, UNICODE_16_0));
        cases.push(whole(&file, UNICODE_15_1, SUPPLIED));
    }
    cases.extend(LEGAL.map(supplied));
    cases
}

/// Widths that the text doesn't have, the largest among them, in a file with
/// a shebang that is trimmed.
fn supplied(rule: usize) -> CallCase {
    let name = |width| Some(text(0..0, width, "変数"));
    let path = node(4, 0..0, [name(0), name(7), name(65_535)]);
    let shebang = Some(text(0..0, 9, "#!/変\u{3000}\n"));
    let import = node(16, 0..0, [Some(path), None]);
    let tree = node(1, 0..0, [shebang, Some(import)]);
    let mut case = on("", vec![layout(rule, 1, true)]);
    case.image = image::write(&[], &tree);
    case.world.store.resize(12 * Row::CELLS, 3);
    let all = left(&case).laying.at.next_row;
    case.calls.push(render(rule, all));
    case
}

/// Each rule from states that carry none, each of them, and one that no call
/// could have chosen, begun and not.
pub fn carried() -> Vec<CallCase> {
    let mut cases = Vec::new();
    for carried in [0, 1, 2, 3, 7, u32::MAX as usize] {
        for begun in [true, false] {
            let calls = LEGAL.map(|rule| layout(rule, 0, false)).collect();
            let mut case = on("const a: b = 1;", calls);
            case.world.laying.begun = begun;
            case.world.laying.rule = carried;
            cases.push(case);
        }
    }
    cases
}

/// Rules that can't be chosen: 20, also where the file is refused, where the
/// mode is, and where another is carried.
pub fn illegal() -> Vec<CallCase> {
    let call = |rule, mode| {
        Call::Layout(LayoutArgs {
            stop: 0,
            close: false,
            mode,
            rule,
            archive: false,
        })
    };
    let mut cases = Vec::new();
    for rule in ILLEGAL {
        let calls = vec![call(rule, OLD), call(rule, 2)];
        let readable = on("const a: b = 1;", calls);
        let mut unreadable = readable.clone();
        unreadable.source = b"\xFF".into();
        unreadable.world.laying.begun = true;
        unreadable.world.laying.rule = SUPPLIED;
        cases.extend([readable, unreadable]);
    }
    cases
}

/// The first accepted call of each kind chooses for its kind alone.
pub fn choices() -> Vec<CallCase> {
    let first = run(FILE).stops[1].next_row;
    let calls = |laid: usize, shown: usize| {
        let [not_laid, not_shown] = [laid, shown].map(|rule| 1 + rule % 3);
        vec![
            layout(4, 0, false),
            layout(laid, 0, false),
            layout(not_laid, 1, false),
            render(0, 0),
            render(shown, 0),
            render(not_shown, 0),
            layout(laid, 1, false),
            render(not_shown, first),
            render(shown, first),
            layout(not_laid, 2, true),
            Call::Layout(LayoutArgs {
                stop: 2,
                close: true,
                mode: NEW,
                rule: laid,
                archive: false,
            }),
            layout(laid, 2, true),
        ]
    };
    let mut cases = Vec::new();
    for laid in LEGAL {
        let others = LEGAL.filter(|shown| (laid + shown) % 3 < 2);
        cases.extend(others.map(|shown| on(FILE, calls(laid, shown))));
    }
    cases
}

/// What the reader refuses, by each rule: layout with its numbers, rendering
/// with 2 and 3 alone.
pub fn unreadable() -> Vec<CallCase> {
    let mut cases = Vec::new();
    for rule in LEGAL {
        let calls = vec![
            layout(rule, 0, false),
            Call::Render(RenderArgs {
                stop: 0,
                room: 9,
                width: REFERENCE,
                rule,
                allotment: ALL_ROWS,
            }),
        ];
        let readable = on("const a: b = 1;", calls);
        for fault in 0..3 {
            let mut case = readable.clone();
            match fault {
                0 => case.source[3] = 0xFF,
                1 => case.image[0] = 3,
                _ => case.image[7] = 1,
            }
            cases.push(case);
        }
    }
    cases
}
