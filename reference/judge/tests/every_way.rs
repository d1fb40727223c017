//! Pieces of few bytes, which can be read in many ways: the search says what
//! trying one way after the other says.

use judge::{holds::Pieces, random::Random, tokens::Token};

/// Whether bytes can be read as pieces, all of them or the first so many; a
/// comma may stand behind the last token already.
fn reads(pieces: Pieces, comma: bool, text: &[u8], all: bool) -> bool {
    let Pieces { comments, tokens } = pieces;
    let done = !all || comments.is_empty() && tokens.is_empty();
    let ends = tokens.first().is_some_and(|token| token.ends_list);
    let filler = match text {
        [b' ' | b'\n', rest @ ..] => reads(pieces, comma, rest, all),
        [b',', rest @ ..] if ends && !comma => reads(pieces, true, rest, all),
        _ => false,
    };
    let comment = comments.split_first().is_some_and(|(first, comments)| {
        let line = format!("{first}\n");
        let rest = text.strip_prefix(line.as_bytes());
        let pieces = Pieces { comments, tokens };
        rest.is_some_and(|rest| reads(pieces, comma, rest, all))
    });
    let token = tokens.split_first().is_some_and(|(first, tokens)| {
        let rest = text.strip_prefix(first.text.as_bytes());
        let pieces = Pieces { comments, tokens };
        rest.is_some_and(|rest| reads(pieces, false, rest, all))
    });
    text.is_empty() && done || filler || comment || token
}

/// Few bytes of few sorts.
fn scrap(random: &mut Random, most: usize) -> String {
    let sorts = [' ', '\n', ',', 'a', 'a', 'b'];
    let length = random.below(most + 1);
    (0..length).map(|_| *random.pick(&sorts)).collect()
}

/// Comments, tokens, and a text that has them, or most of them.
struct Case {
    comments: Vec<String>,
    tokens: Vec<String>,
    text: String,
}

const END: &str = "]";

impl Case {
    fn new(random: &mut Random) -> Self {
        let comment =
            |random: &mut Random| scrap(random, 2).trim_end().to_string();
        let token = |random: &mut Random| match random.below(4) {
            0 => END.to_string(),
            _ => scrap(random, 3),
        };
        let [some, more] = [random.below(4), random.below(5)];
        let mut case = Case {
            comments: (0..some).map(|_| comment(random)).collect(),
            tokens: (0..more).map(|_| token(random)).collect(),
            text: String::new(),
        };
        case.write(random);
        case
    }

    fn write(&mut self, random: &mut Random) {
        let mut lines = self.comments.iter();
        for token in &self.tokens {
            while random.once_in(3) {
                let line = lines.next().map_or("", String::as_str);
                self.text += line;
                self.text.push(*random.pick(&['\n', '\n', ' ']));
            }
            if token == END && random.once_in(2) {
                self.text.push(',');
            }
            if !random.once_in(12) {
                self.text += token;
            }
        }
        for line in lines {
            self.text += &format!("{line}\n");
        }
    }
}

#[test]
fn the_search_leaves_out_no_way() {
    let random = &mut Random::new(108, 1, 0);
    // Whether all of the pieces are there, and whether the first so many.
    let mut counts = [[0; 2]; 2];
    for _ in 0..200_000 {
        let case = Case::new(random);
        let comments: Vec<&str> =
            case.comments.iter().map(String::as_str).collect();
        let token = |text| Token {
            text,
            ends_list: text == END,
        };
        let tokens: Vec<Token> =
            case.tokens.iter().map(|text| token(text)).collect();
        let pieces = Pieces {
            comments: &comments,
            tokens: &tokens,
        };
        let text = case.text.as_bytes();
        let due = [true, false].map(|all| reads(pieces, false, text, all));
        let got = [pieces.make(text).is_ok(), pieces.begin(text).is_ok()];
        assert_eq!(due, got, "{comments:?}, {tokens:?}: {:?}", case.text);
        counts[usize::from(due[0])][usize::from(due[1])] += 1;
    }
    let [[neither, begun], [never, both]] = counts;
    assert_eq!(never, 0);
    assert!(neither.min(begun).min(both) > 5_000, "{counts:?}");
}
