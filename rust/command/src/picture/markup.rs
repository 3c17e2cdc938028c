//! Text for XML and HTML.

/// The text for an element or for an attribute in quotes.
pub fn escaped(text: &str) -> String {
    let mut out = String::new();
    for letter in text.chars() {
        match letter {
            '&' => out.push_str("&amp;"),
            '<' => out.push_str("&lt;"),
            '>' => out.push_str("&gt;"),
            '"' => out.push_str("&quot;"),
            '\'' => out.push_str("&#39;"),
            letter => out.push(letter),
        }
    }
    out
}

/// The text in so many places, its middle left out where it is longer.
pub fn shortened(text: &str, places: usize) -> String {
    // Letters beyond ASCII may be as wide as two.
    let width = |letter: &char| if letter.is_ascii() { 1 } else { 2 };
    let all: usize = text.chars().map(|letter| width(&letter)).sum();
    if all <= places {
        return text.to_string();
    }
    let half = |letters: &mut dyn Iterator<Item = char>| -> Vec<char> {
        let mut left = places / 2;
        let fits = |letter: &char| {
            let rest = left.checked_sub(width(letter));
            left = rest.unwrap_or(0);
            rest.is_some()
        };
        letters.take_while(fits).collect()
    };
    let start: String = half(&mut text.chars()).into_iter().collect();
    let end: String = half(&mut text.chars().rev()).into_iter().rev().collect();
    format!("{start}\u{2026}{end}")
}
