//! Rust sources as tokens, comments left out.

#[derive(Clone, Copy, PartialEq, Eq, Debug)]
pub enum Kind {
    Word,
    Number,
    /// What stands in a literal of text, escapes as they are; the next two likewise.
    Text,
    /// A text of bytes.
    Bytes,
    /// A character or a byte.
    Letter,
    Sign,
}

#[derive(Debug)]
pub struct Token {
    pub kind: Kind,
    pub text: String,
    pub line: usize,
    /// Whether space stands before it.
    pub is_spaced: bool,
}

/// Signs of several letters, the longest first.
const SIGNS: [&str; 17] = [
    "<<=", ">>=", "<<", ">>", "&&", "||", "&=", "|=", "^=", "%=", "*=", "/=", "::", "->", "=>",
    "..", "==",
];

pub fn of(source: &str) -> Vec<Token> {
    let mut tokens = Vec::new();
    let mut rest = source;
    let mut is_spaced = true;
    while let Some(letter) = rest.chars().next() {
        let (length, found) = match comment(rest) {
            Some(length) => (length, None),
            None if letter.is_whitespace() => (letter.len_utf8(), None),
            None => token(rest),
        };
        if let Some((kind, text)) = found {
            let line = 1 + source[..source.len() - rest.len()].matches('\n').count();
            tokens.push(Token {
                kind,
                text: text.to_string(),
                line,
                is_spaced,
            });
        }
        is_spaced = found.is_none();
        rest = &rest[length..];
    }
    tokens
}

/// The length of a comment; those in stars may stand within each other.
fn comment(rest: &str) -> Option<usize> {
    if rest.starts_with("//") {
        return Some(rest.find('\n').unwrap_or(rest.len()));
    }
    rest.strip_prefix("/*")?;
    let (mut depth, mut place) = (0, 0);
    loop {
        let here = rest.get(place..)?;
        match here {
            _ if here.starts_with("/*") => (depth, place) = (depth + 1, place + 2),
            _ if here.starts_with("*/") => (depth, place) = (depth - 1, place + 2),
            _ => place += here.chars().next()?.len_utf8(),
        }
        if depth == 0 {
            return Some(place);
        }
    }
}

/// The length of the token that stands first, and the token.
fn token(rest: &str) -> (usize, Option<(Kind, &str)>) {
    if let Some((start, end, length)) = literal(rest) {
        let kind = match (rest.starts_with('b'), rest[..start].ends_with('\'')) {
            (_, true) => Kind::Letter,
            (true, false) => Kind::Bytes,
            (false, false) => Kind::Text,
        };
        return (length, Some((kind, &rest[start..end])));
    }
    let is_name = |letter: char| letter.is_alphanumeric() || letter == '_';
    let length = rest.find(|letter| !is_name(letter)).unwrap_or(rest.len());
    if length > 0 {
        let kind = match rest.starts_with(|letter: char| letter.is_ascii_digit()) {
            true => Kind::Number,
            false => Kind::Word,
        };
        return (length, Some((kind, &rest[..length])));
    }
    let one = rest.chars().next().map_or(0, char::len_utf8);
    let sign = SIGNS.iter().find(|sign| rest.starts_with(**sign));
    let length = sign.map_or(one, |sign| sign.len());
    (length, Some((Kind::Sign, &rest[..length])))
}

/// Where the text of a literal starts and ends, and the literal's length.
fn literal(rest: &str) -> Option<(usize, usize, usize)> {
    let bytes = usize::from(rest.starts_with('b'));
    let raw = rest[bytes..].strip_prefix('r').unwrap_or_default();
    let fences = raw.find(|letter| letter != '#').unwrap_or_default();
    if raw[fences..].starts_with('"') {
        let start = bytes + 1 + fences + 1;
        let fence = format!("\"{}", "#".repeat(fences));
        let end = start + rest[start..].find(&fence)?;
        return Some((start, end, end + fence.len()));
    }
    let start = bytes + 1;
    let quote = rest[bytes..].chars().next()?;
    let end = start + end_of(rest.get(start..)?, quote)?;
    let is_literal = match quote {
        '"' => true,
        // A lifetime has no second tick after one letter.
        '\'' => rest[start..].starts_with('\\') || rest[start..end].chars().count() == 1,
        _ => false,
    };
    is_literal.then_some((start, end, end + 1))
}

/// Where the quote stands that ends a text.
fn end_of(text: &str, quote: char) -> Option<usize> {
    let mut is_escaped = false;
    for (place, letter) in text.char_indices() {
        match letter {
            _ if is_escaped => is_escaped = false,
            '\\' => is_escaped = true,
            _ if letter == quote => return Some(place),
            _ => {}
        }
    }
    None
}
