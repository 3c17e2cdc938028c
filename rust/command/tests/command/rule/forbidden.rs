//! The tokens by which a source could decode what the library decodes: they need a reason.

use super::tokens::{self, Kind, Token};
use seamwillow_tests::independent::reference::PARTS;

/// Larger numbers need a reason: 01's figures are larger, but for small counts and bit places.
const MOST: u64 = 16;

/// Words by which fields could be cut out of words, or the library's C functions be passed by.
const FORBIDDEN_WORDS: [&str; 23] = [
    "unsafe",
    "extern",
    "seamwillow_tests",
    "ops",
    "not",
    "product",
    "reverse_bits",
    "swap_bytes",
    "rotate_left",
    "rotate_right",
    "count_ones",
    "leading_zeros",
    "trailing_zeros",
    "from_be",
    "from_le",
    "from_be_bytes",
    "from_le_bytes",
    "from_ne_bytes",
    "to_be_bytes",
    "to_le_bytes",
    "to_ne_bytes",
    "to_digit",
    "next_multiple_of",
];

/// Pieces of such words, since arithmetic has many names: wrapping_shr, checked_rem, div_ceil.
const FORBIDDEN_PIECES: [&str; 15] = [
    "shl", "shr", "bitand", "bitor", "bitxor", "rem", "mul", "div", "pow", "ilog", "ilog2", "fold",
    "radix", "concat", "include",
];

const FORBIDDEN_SIGNS: [&str; 12] = [
    "<<", "<<=", ">>=", "^", "^=", "%", "%=", "/", "/=", "*=", "&=", "|=",
];

/// After these words an operator has one operand.
const KEYWORDS: [&str; 16] = [
    "as", "break", "const", "dyn", "else", "for", "if", "impl", "in", "let", "match", "move",
    "mut", "ref", "return", "while",
];

/// How literals are told that are letters to a reader and numbers to a program.
pub const A_LETTER: &str = "'x'";
pub const BYTES: &str = "b\"x\"";

/// Whether an operator after the token has two operands.
fn ends_operand(token: &Token) -> bool {
    let text = token.text.as_str();
    match token.kind {
        Kind::Word => !KEYWORDS.contains(&text),
        Kind::Sign => [")", "]", "?"].contains(&text),
        _ => true,
    }
}

/// Whether a token right after an operator is what it works on.
fn begins_operand(token: &Token) -> bool {
    matches!(token.kind, Kind::Word | Kind::Number)
}

/// Whether an arm's arrow comes before what would end an expression.
fn is_in_arm(tokens: &[Token]) -> bool {
    let mut depth = 0;
    for token in tokens.iter().filter(|token| token.kind == Kind::Sign) {
        match token.text.as_str() {
            "=>" => return true,
            "(" | "[" => depth += 1,
            ")" | "]" => depth -= 1,
            "," if depth <= 0 => return false,
            ";" | "{" | "}" => return false,
            _ => {}
        }
    }
    false
}

/// Whether the tokens around an operator are parts of an arm's pattern: names of values and
/// variants, texts, and what ends or begins in brackets.
fn is_pattern(tokens: &[Token], place: usize) -> bool {
    let is_value = |token: &Token| match token.kind {
        Kind::Text | Kind::Bytes | Kind::Letter => true,
        Kind::Word => token.text.starts_with(char::is_uppercase),
        Kind::Sign => ["(", ")"].contains(&token.text.as_str()),
        Kind::Number => false,
    };
    // The last name of a path.
    let mut after = place + 1;
    while tokens.get(after + 1).is_some_and(|it| it.text == "::") {
        after += 2;
    }
    let is_between = is_value(&tokens[place - 1]) && tokens.get(after).is_some_and(is_value);
    is_between && is_in_arm(&tokens[place..])
}

/// Whether the line closes the parameters of a closure: the line before it opened them.
fn closes(tokens: &[Token], place: usize) -> bool {
    let is_line = |at: &usize| tokens[*at].kind == Kind::Sign && tokens[*at].text == "|";
    let last = (0..place).rev().find(is_line);
    last.is_some_and(|last| !has_two(tokens, last))
}

/// Whether an operator has an operand before it.
fn has_two(tokens: &[Token], place: usize) -> bool {
    let before = place.checked_sub(1).map(|before| &tokens[before]);
    before.is_some_and(ends_operand)
}

fn is_forbidden_sign(tokens: &[Token], place: usize) -> bool {
    let token = &tokens[place];
    let next = tokens.get(place + 1);
    let next_is_spaced = next.is_some_and(|next| next.is_spaced);
    let is_between = has_two(tokens, place) || token.is_spaced && next_is_spaced;
    match token.text.as_str() {
        // Generics close so too, but with no space before and no operand right after.
        ">>" => token.is_spaced || !next_is_spaced && next.is_some_and(begins_operand),
        "&" | "*" => is_between,
        "|" => has_two(tokens, place) && !closes(tokens, place) && !is_pattern(tokens, place),
        sign => FORBIDDEN_SIGNS.contains(&sign),
    }
}

fn is_forbidden_word(tokens: &[Token], place: usize) -> bool {
    let text = tokens[place].text.as_str();
    // The attribute by which a source stands elsewhere.
    let is_text = |token: &Token| token.kind == Kind::Text;
    let is_path = text == "path"
        && tokens.get(place + 1).is_some_and(|next| next.text == "=")
        && tokens.get(place + 2).is_some_and(is_text);
    let mut pieces = text.split('_');
    let has_piece = pieces.any(|piece| FORBIDDEN_PIECES.contains(&piece));
    FORBIDDEN_WORDS.contains(&text) || has_piece || is_path
}

fn is_forbidden_number(text: &str) -> bool {
    let is_plain = |text: &str| text.bytes().all(|digit| digit.is_ascii_digit());
    let digits: String = text.chars().filter(|letter| *letter != '_').collect();
    let is_small = digits.parse().is_ok_and(|number: u64| number <= MOST);
    // Another base, an exponent or a type is no plain number either.
    !(is_plain(&digits) && is_small)
}

/// Texts that hold an IDCODE, the beginning of the sync word or a figure of 01's table.
fn is_forbidden_text(text: &str) -> bool {
    let plain = text.replace("\\x", "").to_uppercase();
    let letters: String = plain.chars().filter(char::is_ascii_alphanumeric).collect();
    let has_code = PARTS
        .iter()
        .any(|part| letters.contains(&format!("{:X}", part.idcode)));
    let mut numbers = text.split(|letter: char| !letter.is_ascii_digit());
    let has_figure = numbers.any(|number| {
        let is_figure = |figure: u64| figure > 99 && number == figure.to_string();
        PARTS.iter().any(|part| {
            is_figure(part.frame_words().into())
                || is_figure(part.frame_count().into())
                || is_figure(part.memory_bytes() as u64)
        })
    });
    has_code || letters.contains("AA99") || has_figure
}

/// A token that needs a reason, and its line.
pub type Found = (usize, String);

/// The tokens of a source that the rule forbids.
pub fn in_source(source: &str) -> Vec<Found> {
    let tokens = tokens::of(source);
    let is_forbidden = |place: usize| {
        let Token { kind, text, .. } = &tokens[place];
        match kind {
            Kind::Word => is_forbidden_word(&tokens, place),
            Kind::Sign => is_forbidden_sign(&tokens, place),
            Kind::Number => is_forbidden_number(text),
            Kind::Text => is_forbidden_text(text),
            Kind::Bytes | Kind::Letter => true,
        }
    };
    let told = |token: &Token| match token.kind {
        Kind::Bytes => BYTES.to_string(),
        Kind::Letter => A_LETTER.to_string(),
        _ => token.text.clone(),
    };
    let places = (0..tokens.len()).filter(|place| is_forbidden(*place));
    places
        .map(|place| (tokens[place].line, told(&tokens[place])))
        .collect()
}
