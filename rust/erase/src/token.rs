//! The tokens of Rattle source, which are those of Rust.

use crate::fault::Fault;

#[derive(Clone, Copy, Debug, PartialEq, Eq)]
pub enum Kind {
    Doc,
    Comment,
    Text,
    Letter,
    Lifetime,
    Word,
    Mark,
}

#[derive(Clone, Copy, Debug)]
pub struct Token<'a> {
    pub kind: Kind,
    pub text: &'a str,
    pub start: usize,
}

impl Token<'_> {
    pub fn end(&self) -> usize {
        self.start + self.text.len()
    }

    pub fn is_comment(&self) -> bool {
        matches!(self.kind, Kind::Doc | Kind::Comment)
    }

    /// Whether it is this word or mark, and no text or comment.
    pub fn is(&self, text: &str) -> bool {
        matches!(self.kind, Kind::Word | Kind::Mark) && self.text == text
    }

    pub fn opens(&self) -> bool {
        self.kind == Kind::Mark && matches!(self.text, "(" | "[" | "{")
    }

    pub fn closes(&self) -> bool {
        self.kind == Kind::Mark && matches!(self.text, ")" | "]" | "}")
    }
}

/// Returns the tokens of the source in order. The only spaces that they hold are those within texts and comments.
pub fn tokens(source: &str) -> Result<Vec<Token<'_>>, Fault> {
    let mut found = Vec::new();
    let mut start = 0;
    while let Some(first) = source[start..].chars().next() {
        if first.is_whitespace() {
            start += first.len_utf8();
            continue;
        }
        let (kind, length) = kind_and_length(&source[start..], first)
            .ok_or_else(|| Fault::new(start, "a token that isn't known, or doesn't end"))?;
        let text = &source[start..start + length];
        found.push(Token { kind, text, start });
        start += length;
    }
    Ok(found)
}

/// The kind and length of the token at the front, or `None` for one that the eraser doesn't know: a block comment, a raw
/// text or name, or a text without an end.
fn kind_and_length(rest: &str, first: char) -> Option<(Kind, usize)> {
    if rest.starts_with("/*") {
        return None;
    }
    if rest.starts_with("//") {
        let length = rest.find('\n').unwrap_or(rest.len());
        let is_doc = rest.starts_with("///") || rest.starts_with("//!");
        return Some((if is_doc { Kind::Doc } else { Kind::Comment }, length));
    }
    match first {
        '"' => Some((Kind::Text, quoted_length(rest, '"')?)),
        '\'' => Some(letter_or_lifetime(rest)),
        _ if is_of_word(first) => Some((Kind::Word, word_length(rest)))
            .filter(|(_, length)| !begins_raw(rest.split_at(*length))),
        _ => Some((Kind::Mark, first.len_utf8())),
    }
}

/// Whether a word and what is behind it begin a raw text or a raw name.
fn begins_raw((word, rest): (&str, &str)) -> bool {
    matches!(word, "r" | "br" | "cr") && rest.starts_with(['"', '#'])
}

fn is_of_word(letter: char) -> bool {
    letter.is_alphanumeric() || letter == '_'
}

fn word_length(rest: &str) -> usize {
    rest.find(|letter| !is_of_word(letter))
        .unwrap_or(rest.len())
}

/// The length of what the quote at the front begins, to the quote that ends it.
fn quoted_length(rest: &str, quote: char) -> Option<usize> {
    let mut is_escaped = false;
    for (at, letter) in rest.char_indices().skip(1) {
        if !is_escaped && letter == quote {
            return Some(at + quote.len_utf8());
        }
        is_escaped = !is_escaped && letter == '\\';
    }
    None
}

/// A letter in quotes, a lifetime, or the prime that clauses put behind a name.
fn letter_or_lifetime(rest: &str) -> (Kind, usize) {
    let mut letters = rest.char_indices().skip(1);
    let first = letters.next().map(|(_, letter)| letter);
    let second = letters.next();
    match (first, second) {
        (Some('\\'), _) => match quoted_length(rest, '\'') {
            Some(length) => (Kind::Letter, length),
            None => (Kind::Mark, 1),
        },
        (Some(_), Some((at, '\''))) => (Kind::Letter, at + 1),
        (Some(letter), _) if is_of_word(letter) => (Kind::Lifetime, 1 + word_length(&rest[1..])),
        _ => (Kind::Mark, 1),
    }
}
