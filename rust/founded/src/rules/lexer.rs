//! A rule file's text as tokens, as clingo parts it.

/// What a token is.
#[derive(Clone, Copy, Debug, PartialEq, Eq)]
pub enum Kind {
    Name,
    Not,
    Variable,
    Number,
    Text,
    Directive,
    Mark,
    /// A character that begins no token.
    Unknown,
    /// A string that its line does not end, or that has an escape which is none.
    OpenText,
    /// A block comment that nothing ends.
    OpenComment,
    End,
}

/// A token's kind and bytes.
#[derive(Clone, Copy, Debug)]
pub struct Token {
    pub kind: Kind,
    pub start: usize,
    pub end: usize,
}

/// Marks of more than one character; all others have one. `<-` is none of clingo's, but what others write for `:-`.
const LONG_MARKS: [&str; 9] = [":-", ":~", "..", "<-", "<=", ">=", "!=", "==", "**"];

const MARKS: &str = ".,;|(){}[]:<>=+-*/\\&?^~@$!";

pub struct Lexer<'a> {
    text: &'a str,
    at: usize,
}

fn within_name(c: char) -> bool {
    c.is_ascii_alphanumeric() || c == '_' || c == '\''
}

/// How many bytes at the beginning hold to this.
fn run(text: &str, holds: impl Fn(char) -> bool) -> usize {
    text.find(|c| !holds(c)).unwrap_or(text.len())
}

/// The length of the block comment that the text begins with; block comments nest.
fn block_comment(text: &str) -> Option<usize> {
    let mut depth = 0_usize;
    let mut at = 0;
    loop {
        let rest = &text[at..];
        if rest.starts_with("%*") {
            depth += 1;
            at += 2;
        } else if rest.starts_with("*%") {
            depth -= 1;
            at += 2;
        } else {
            at += rest.chars().next()?.len_utf8();
        }
        if depth == 0 {
            return Some(at);
        }
    }
}

/// The length of the string that the text begins with.
fn string(text: &str) -> Option<usize> {
    let mut escaped = false;
    for (at, c) in text.char_indices().skip(1) {
        match c {
            '\\' | '"' | 'n' if escaped => escaped = false,
            _ if escaped => return None,
            '\\' => escaped = true,
            '"' => return Some(at + 1),
            '\n' | '\r' => return None,
            _ => {}
        }
    }
    None
}

impl<'a> Lexer<'a> {
    pub fn new(text: &'a str) -> Self {
        Self { text, at: 0 }
    }

    /// Passes over white space and comments; the bytes of a block comment that nothing ends, if there is one.
    fn skip(&mut self) -> Option<(usize, usize)> {
        loop {
            let rest = &self.text[self.at..];
            if rest.starts_with("%*") {
                match block_comment(rest) {
                    Some(length) => self.at += length,
                    None => {
                        let open = (self.at, self.at + 2);
                        self.at = self.text.len();
                        return Some(open);
                    }
                }
            } else if rest.starts_with('%') {
                self.at += run(rest, |c| c != '\n');
            } else {
                match run(rest, |c| matches!(c, ' ' | '\t' | '\r' | '\n')) {
                    0 => return None,
                    length => self.at += length,
                }
            }
        }
    }

    pub fn next(&mut self) -> Token {
        if let Some((start, end)) = self.skip() {
            let kind = Kind::OpenComment;
            return Token { kind, start, end };
        }
        let rest = &self.text[self.at..];
        let (kind, length) = Self::token(rest);
        let start = self.at;
        self.at += length;
        Token {
            kind,
            start,
            end: self.at,
        }
    }

    /// The token that the text begins with, and its length.
    fn token(rest: &str) -> (Kind, usize) {
        let Some(first) = rest.chars().next() else {
            return (Kind::End, 0);
        };
        let letters = &rest[run(rest, |c| c == '_')..];
        match first {
            '"' => match string(rest) {
                Some(length) => (Kind::Text, length),
                None => (Kind::OpenText, 1),
            },
            '0' => (Kind::Number, 1),
            '1'..='9' => (Kind::Number, run(rest, |c| c.is_ascii_digit())),
            '#' if rest[1..].starts_with(|c: char| c.is_ascii_alphabetic()) => {
                (Kind::Directive, 1 + run(&rest[1..], within_name))
            }
            '_' | 'a'..='z' | 'A'..='Z' => {
                let length = run(rest, within_name);
                let kind = match &rest[..length] {
                    "not" => Kind::Not,
                    _ if letters.starts_with(|c: char| c.is_ascii_lowercase()) => Kind::Name,
                    _ => Kind::Variable,
                };
                (kind, length)
            }
            _ => match LONG_MARKS.iter().find(|&&mark| rest.starts_with(mark)) {
                Some(mark) => (Kind::Mark, mark.len()),
                None if MARKS.contains(first) => (Kind::Mark, 1),
                None => (Kind::Unknown, first.len_utf8()),
            },
        }
    }
}
