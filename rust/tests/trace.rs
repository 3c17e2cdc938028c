//! Every name in `docs/trace` is found, once, where the page's notation says that it is.

use seamwillow_tests::harness::repository::{declarations, files, place, read, Kind};

/// How often a text has an item: `fn`, `enum`, `struct` or `const`, and its name.
fn items(text: &str, item: &str) -> usize {
    let ends = |rest: &str| !rest.starts_with(|c: char| c.is_alphanumeric() || c == '_');
    let has = |line: &str| line.split_once(item).is_some_and(|(_, rest)| ends(rest));
    text.lines().filter(|line| has(line)).count()
}

/// How often the files of a crate's folder have something; those of a stem, where one is given.
fn within(folder: &str, stem: &str, has: impl Fn(&str) -> usize) -> usize {
    let files = match place(folder).is_dir() {
        true => files(folder, ""),
        false => Vec::new(),
    };
    let fits = |file: &&String| stem.is_empty() || file.contains(&format!("/{stem}."));
    files.iter().filter(fits).map(|file| has(&read(file))).sum()
}

/// How many things have a name that stands in a line of a label.
fn count(whose: &str, name: &str, label: &str) -> usize {
    if whose == "must-fail" {
        return files("crates", &format!("/must-fail/{name}.edit")).len();
    }
    if whose.ends_with(".rs") {
        return items(&read(&format!("rust/tests/{whose}")), &format!("fn {name}"));
    }
    let folder = |folder: &str| format!("crates/{whose}/{folder}");
    let [specs, laws, src] = ["specs", "proofs/Laws", "src"].map(folder);
    let stated = |stem: &str, has: &dyn Fn(&str) -> usize| {
        within(&specs, stem, has) + within(&laws, stem, has)
    };
    if let Some(stem) = name.strip_suffix(".antt") {
        return stated(stem, &|_| 1);
    }
    if name.contains(' ') {
        return within(&src, "", |text| items(text, name));
    }
    let (stem, name) = name.split_once('.').unwrap_or(("", name));
    let declared = |kinds: &[Kind]| {
        stated(stem, &|text| {
            let found = declarations(text).into_iter();
            found
                .filter(|found| found.name == name && kinds.contains(&found.kind))
                .count()
        })
    };
    match label {
        "definition" => declared(&[Kind::Definition]),
        "theorem" => declared(&[Kind::Theorem]),
        "" if declared(&[Kind::Definition, Kind::Theorem]) == 1 => 1,
        _ => within(&src, stem, |text| items(text, &format!("fn {name}"))),
    }
}

/// What is wrong with a code span: names, a test file, a program with its output, or another path.
fn wrong(span: &str, label: &str) -> Vec<String> {
    let Some((whose, names)) = span.split_once(": ") else {
        let paths = [
            format!("rust/tests/{span}"),
            format!("crates/{span}/stdout"),
            span.to_owned(),
        ];
        let found = paths.iter().any(|path| place(path).exists());
        return (!found).then(|| format!("no {span}")).into_iter().collect();
    };
    let counts = names
        .split(", ")
        .map(|name| (name, count(whose, name, label)));
    let counts = counts.filter(|&(_, count)| count != 1);
    counts
        .map(|(name, count)| format!("{count} of `{whose}: {name}` ({label})"))
        .collect()
}

/// What a page names that is not there once. A line that goes on is indented.
fn unresolved(page: &str) -> Vec<String> {
    let (mut label, mut found) = ("", Vec::new());
    for line in page.lines().filter(|line| !line.starts_with("> ")) {
        if !line.starts_with("  ") {
            let start = line
                .strip_prefix("- ")
                .and_then(|line| line.split_once(": "));
            let labels = ["definition", "contract", "theorem", "test"];
            label = start.map_or("", |(word, _)| word);
            label = labels
                .into_iter()
                .find(|&known| known == label)
                .unwrap_or_default();
        }
        let parts: Vec<&str> = line.split('`').collect();
        assert!(parts.len() % 2 == 1, "a code span that goes on: {line}");
        let spans = parts.iter().skip(1).step_by(2);
        found.extend(spans.flat_map(|span| wrong(span, label)));
    }
    found
}

#[test]
fn every_name_is_found() {
    let pages = files("docs/trace", ".md");
    assert!(!pages.is_empty());
    for page in pages {
        let unresolved = unresolved(&read(&page)).join("\n");
        assert!(unresolved.is_empty(), "{page}:\n{unresolved}");
    }
}

#[test]
fn wrong_names_are_refused() {
    let page = "\
> `no-such-quotation`
`parts: no-such-prose`
- definition: `parts: no-such-name`, `parts: Device.no-such-name`, `no_crate: parts`
- contract: `parts: no_such_name`, `parts: frame_length`, `parts: const NO_SUCH`,
  `parts: no_such_name`
- theorem: `must-fail: no_such_edit`, `parts: frame_length`, `parts: Nothing.antt`
- test: `trace.rs: no_such_test`, `no_program`, `no_test.rs`, `rust/no_file`
";
    assert_eq!(unresolved(page).len(), 15, "{:#?}", unresolved(page));
}
