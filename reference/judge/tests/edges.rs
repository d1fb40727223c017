//! Document 01, "Edges at column 80", on nodes straight through the renderer.

mod support;

use support::{N::*, pen, render, render_at, text};

fn pair(first: usize, second: usize) -> Vec<support::N> {
    vec![Group(0, vec![Wide(first), LineOrSpace, Wide(second)])]
}

#[test]
fn a_group_of_eighty_columns_keeps_its_line() {
    let x = |count| "x".repeat(count);
    assert_eq!(text(&pair(40, 39)), x(40) + " " + &x(39));
    assert_eq!(text(&pair(40, 40)), x(40) + "\n" + &x(40));
}

#[test]
fn so_does_one_of_another_width() {
    for width in [40, 41, 80, 100, 200] {
        let marks = |columns: usize| {
            render_at(&pair(20, columns - 21), pen(0, 0), width).marks
        };
        assert_eq!(marks(width), [0], "{width}");
        assert_eq!(marks(width + 1), [1], "{width}");
    }
}

#[test]
fn at_column_zero_the_indent_counts() {
    let group = |width| [Group(0, vec![Wide(width)])];
    assert_eq!(render(&group(72), pen(2, 0)).marks, [0]);
    assert_eq!(render(&group(73), pen(2, 0)).marks, [1]);
}

#[test]
fn a_call_may_keep_its_callee_on_the_line() {
    let call = |callee: usize, arguments: usize| {
        let callee = vec![Wide(callee - 1), Line, Ascii("c")];
        let arguments = vec![Wide(arguments - 1), Line, Ascii(")")];
        [Call(0, callee, 1, arguments)]
    };
    let kept = render(&call(78, 3), pen(0, 0));
    assert_eq!(kept.marks, [0, 1]);
    assert!(!kept.text[..78].contains(&b'\n'));
    let broken = render(&call(79, 2), pen(0, 0));
    assert_eq!(broken.marks, [1, 0]);
    assert_eq!(broken.text[78], b'\n');
}

#[test]
fn an_empty_line_at_column_zero_is_one_newline() {
    assert_eq!(render(&[EmptyLine], pen(0, 0)).text, b"\n");
    assert_eq!(render(&[EmptyLine], pen(0, 3)).text, b"\n\n");
}

#[test]
fn a_comment_is_indented_or_spaced() {
    assert_eq!(render(&[Comment("# c")], pen(1, 0)).text, b"    # c\n");
    assert_eq!(render(&[Comment("# c")], pen(1, 5)).text, b" # c\n");
}

#[test]
fn indent_next_spares_the_first_line() {
    let parts = || vec![Ascii("a"), Line, Ascii("b")];
    assert_eq!(text(&[IndentNext(parts())]), "a\n    b");
    assert_eq!(text(&[Indent(parts())]), "    a\n    b");
}

#[test]
fn an_empty_text_writes_the_indent() {
    assert_eq!(render(&[Ascii("")], pen(1, 0)).text, b"    ");
}

#[test]
fn a_comment_in_a_callee_goes_unseen_by_the_group_made_there() {
    let marks = |callee| {
        let arguments = vec![Wide(40), LineOrSpace, Wide(45)];
        render(&[Call(0, callee, 1, arguments)], pen(0, 0)).marks
    };
    // Too wide either way. Without a comment the callee's group stays flat.
    assert_eq!(marks(vec![Ascii("f")]), [0, 1]);
    // With one the second branch is taken, and its group is too wide.
    assert_eq!(marks(vec![Comment("# c")]), [1, 1]);
    assert_eq!(marks(vec![Indent(vec![Comment("# c")])]), [1, 1]);
    // Through a nested group the comment isn't seen.
    let nested = vec![Group(2, vec![Comment("# c")])];
    assert_eq!(marks(nested), [0, 1, 1]);
    // In the second branch the made-up group fits, comment or not.
    let short = Call(0, vec![Comment("# c")], 1, vec![Ascii("()")]);
    assert_eq!(render(&[short], pen(0, 0)).marks, [0, 0]);
}
