//! `docs/FORMS.md` has every line of 01's list of forms, and each place that it names holds the line that it quotes.

use seamwillow_tests::harness::repository::read;

/// 01, "Forms to use in the code": what each line of the list quotes.
const FORMS: [&str; 8] = [
    "The eight parts stand in one constant table",
    "The device record holds one of five phases",
    "hand back the part of whichever of the two images",
    "a frame in hand of 213 words",
    "the search ending as soon as that word is met",
    "it prints exactly these four lines",
    "A list of steps is read by its steps, and a group step by its list",
    "A layout reader holds the lent layout and its place in it",
];

/// The file that a row of a table names, and the line that it quotes.
fn place(row: &str) -> Option<(&str, &str)> {
    let row = row.strip_prefix("| `")?.strip_suffix("` |")?;
    row.split_once("` | `")
}

/// Whether a row names a file and quotes a line that stands in it once.
fn holds(row: &str) -> Result<(), String> {
    let (file, text) = place(row).ok_or_else(|| format!("a row that names no place: {row}"))?;
    let found = read(file)
        .lines()
        .filter(|line| line.trim() == text)
        .count();
    match found {
        1 => Ok(()),
        _ => Err(format!("{file} has this line {found} times: {text}")),
    }
}

fn rows(text: &str) -> impl Iterator<Item = &str> {
    text.lines().filter(|line| line.starts_with("| `"))
}

#[test]
fn every_form_has_a_place_or_its_request() {
    let page = read("docs/FORMS.md");
    for form in FORMS {
        let heading = format!("\n## \"{form}\"\n");
        let (_, rest) = page
            .split_once(&heading)
            .unwrap_or_else(|| panic!("no heading: {form}"));
        let section = rest.split("\n## ").next().unwrap_or_default();
        let to_come = section.starts_with("\n(02) ") && section.contains("with its request");
        assert_ne!(rows(section).count() > 0, to_come, "{form}");
    }
}

#[test]
fn every_place_holds_its_line() {
    for row in rows(&read("docs/FORMS.md")) {
        assert_eq!(holds(row), Ok(()));
    }
}

#[test]
fn other_rows_are_refused() {
    assert_eq!(holds("| `LICENSE` | `MIT License` |"), Ok(()));
    for (row, why) in [
        ("| `LICENSE` | `MIT Licence` |", "0 times"),
        ("| `LICENSE` | `MIT` |", "0 times"),
        ("| `LICENSE` | `` |", "4 times"),
        ("| `LICENSE` | MIT License |", "no place"),
    ] {
        let refusal = holds(row).expect_err(row);
        assert!(refusal.contains(why), "{refusal}");
    }
}
