//! Tokens and comments, found as lexer.rs finds them; what a name is made of
//! is by Rust's letters and digits, not by `unicode_ident`.

use std::ops::Range;

const PAIRS: [&str; 16] = [
    "==", "!=", "&&", "||", ">=", "<=", "->", "=>", "+=", "-=", "**", "*=",
    "/=", "%=", "--", "f\"",
];

/// Where the next token starts, and the comments on the way there. A comment
/// includes its newline.
pub fn gap(source: &str, from: usize) -> (usize, Vec<Range<usize>>) {
    let mut comments = Vec::new();
    let mut at = from;
    loop {
        let rest = &source[at..];
        let blanks = rest.len() - rest.trim_start().len();
        at += blanks;
        if !source[at..].starts_with("//") {
            return (at, comments);
        }
        let newline = source[at..].find('\n');
        let end = newline.map_or(source.len(), |length| at + length + 1);
        comments.push(at..end);
        at = end;
    }
}

/// The token at a place; empty at the end.
pub fn token(rest: &str) -> &str {
    let Some(first) = rest.chars().next() else {
        return rest;
    };
    let address = || ipv6(rest).or_else(|| ipv4(rest));
    let length =
        address()
            .or_else(|| pair(rest))
            .unwrap_or_else(|| match first {
                '"' | '\'' => quoted(rest, first),
                '0'..='9' => number(rest),
                _ if is_word(first) => {
                    asn(rest).unwrap_or_else(|| word(rest))
                }
                _ => first.len_utf8(),
            });
    &rest[..length]
}

/// Whether a token is a literal.
pub fn is_literal(token: &str) -> bool {
    token.starts_with(|c: char| matches!(c, '"' | '\'' | '0'..='9'))
        || matches!(token, "true" | "false")
        || ipv6(token).or_else(|| asn(token)).is_some()
}

/// Letters, digits, `_`, and marks over letters.
pub fn is_word(c: char) -> bool {
    c.is_alphanumeric() || matches!(c, '_' | '\u{300}'..='\u{36F}')
}

/// How many bytes the characters have that come first and are of a sort.
fn run(rest: &str, sort: impl Fn(char) -> bool) -> usize {
    rest.find(|c| !sort(c)).unwrap_or(rest.len())
}

fn word(rest: &str) -> usize {
    run(rest, is_word)
}

fn pair(rest: &str) -> Option<usize> {
    let found = PAIRS.iter().find(|pair| rest.starts_with(**pair));
    found.map(|pair| pair.len())
}

/// `2001:db8::1`: two colons with digits before them, or none.
fn ipv6(rest: &str) -> Option<usize> {
    let mut at = 0;
    for _ in 0..2 {
        at += run(&rest[at..], |c| c.is_ascii_hexdigit());
        rest[at..].strip_prefix(':')?;
        at += 1;
    }
    Some(at + run(&rest[at..], |c| c.is_ascii_hexdigit() || c == ':'))
}

/// `10.0.0.0`: digits and a dot three times.
fn ipv4(rest: &str) -> Option<usize> {
    let digits = |at| run(&rest[at..], |c| c.is_ascii_digit());
    let mut at = 0;
    for _ in 0..3 {
        let behind = at + digits(at);
        rest[behind..].strip_prefix('.').filter(|_| behind > at)?;
        at = behind + 1;
    }
    Some(at + digits(at))
}

/// `AS65000`.
fn asn(rest: &str) -> Option<usize> {
    let digits = run(rest.strip_prefix("AS")?, |c| c.is_ascii_digit());
    (digits > 0).then_some(2 + digits)
}

/// `10`, `0x1F`, `1_000u32`, `1.5e-3`. A dot before a name isn't part of it.
fn number(rest: &str) -> usize {
    if let Some(digits) = rest.strip_prefix("0x") {
        return 2 + run(digits, |c| c.is_ascii_hexdigit());
    }
    let digits =
        |at| at + run(&rest[at..], |c| c.is_ascii_digit() || c == '_');
    let mut at = digits(0);
    if let Some(behind) = rest[at..].strip_prefix('.') {
        let named = |c: char| c.is_alphabetic() || c == '_' || c == '.';
        if behind.starts_with(named) {
            return at;
        }
        at = digits(at + 1);
    }
    if rest[at..].starts_with(['e', 'E']) {
        let signed = rest[at + 1..].starts_with(['+', '-']);
        at = digits(at + 1 + usize::from(signed));
    }
    at + word(&rest[at..])
}

fn quoted(rest: &str, quote: char) -> usize {
    let mut escaped = false;
    for (at, c) in rest.char_indices().skip(1) {
        match c {
            _ if escaped => escaped = false,
            '\\' => escaped = true,
            _ if c == quote => return at + 1,
            _ => {}
        }
    }
    rest.len()
}

/// How long the text of an f-string is, up to `{` or the closing quote.
pub fn f_string_text(rest: &str) -> usize {
    let mut at = 0;
    while let Some(c) = rest[at..].chars().next() {
        match c {
            '"' => return at,
            '{' if rest[at..].starts_with("{{") => at += 2,
            '{' => return at,
            '\\' => at += 1 + escape(&rest[at + 1..]),
            _ => at += c.len_utf8(),
        }
    }
    at
}

/// What belongs to a backslash: a character, or `u{41}`.
fn escape(rest: &str) -> usize {
    if rest.starts_with("u{") || rest.starts_with("U{") {
        return rest.find('}').map_or(rest.len(), |brace| brace + 1);
    }
    rest.chars().next().map_or(0, char::len_utf8)
}
