//! Every file that a document or a comment names is in the repository.

use seamwillow_tests::harness::repository::{files, place, read};

/// Folders and files that a path of the documents may begin with.
const BEGINNINGS: [&str; 9] = [
    "crates/",
    "docs/",
    "rust/",
    "include/",
    "examples/",
    "man/",
    ".ci/",
    "specs/",
    "proofs/",
];
const ENDINGS: [&str; 8] = [
    ".antt", ".rt", ".rs", ".md", ".h", ".txt", ".edit", "/stdout",
];

/// The words of a text that look like a path of this repository.
fn paths(text: &str) -> impl Iterator<Item = &str> {
    let words = text.split(|c: char| c.is_whitespace() || "`()[],;:\"#".contains(c));
    words.map(|word| word.trim_end_matches('.')).filter(|word| {
        let begins = BEGINNINGS.iter().any(|begin| word.starts_with(begin));
        let ends = ENDINGS.iter().any(|end| word.ends_with(end));
        begins && ends && !word.contains(['*', '…', '{']) && !word.contains("NAME")
    })
}

/// The files of proofs and definitions that a text names without a folder.
fn bare_names(text: &str) -> impl Iterator<Item = &str> {
    let spans = text.split('`').skip(1).step_by(2);
    spans.filter(|span| span.ends_with(".antt") && !span.contains(['/', ' ', ':']))
}

/// A path from the root, or one of a crate's specs or proofs, whichever crate the text is about.
fn is_there(path: &str, specs: &[String]) -> bool {
    let is_in_crate = ["specs/", "proofs/"].iter().any(|it| path.starts_with(it));
    place(path).exists()
        || is_in_crate && specs.iter().any(|file| file.ends_with(&format!("/{path}")))
}

#[test]
fn every_path_is_there() {
    let specs = files("crates", ".antt");
    let documents = [files("docs", ".md"), vec!["README.md".into()]];
    let sources = [
        files("crates", ".antt"),
        files("crates", ".rt"),
        files("crates", ".edit"),
    ];
    let (mut seen, mut wrong) = (0, String::new());
    for file in documents.into_iter().chain(sources).flatten() {
        for path in paths(&read(&file)) {
            seen += 1;
            if !is_there(path, &specs) {
                wrong += &format!("{file}: {path}\n");
            }
        }
        for name in bare_names(&read(&file)) {
            if !specs.iter().any(|file| file.ends_with(&format!("/{name}"))) {
                wrong += &format!("{file}: {name}\n");
            }
        }
    }
    assert!(wrong.is_empty(), "\n{wrong}");
    assert!(seen > 300, "only {seen} paths were found");
}

#[test]
fn a_path_that_is_not_there_is_told() {
    let text = "`crates/parts/specs/Table.antt`, and (`specs/Nowhere.antt`): see docs/NONE.md.";
    let found: Vec<_> = paths(text).collect();
    assert_eq!(
        found,
        [
            "crates/parts/specs/Table.antt",
            "specs/Nowhere.antt",
            "docs/NONE.md"
        ]
    );
    let specs = files("crates", ".antt");
    let there: Vec<_> = found.iter().map(|path| is_there(path, &specs)).collect();
    assert_eq!(there, [true, false, false]);
}
