//! The inventory in `docs/CHECKS.md` is what the tree has, and each must-fail edit says what it changes and what refuses it.
//! `SEAMWILLOW_BLESS=1 cargo test --release --offline --test checks` writes the inventory anew.

use std::env;
use std::ffi::OsStr;
use std::fs;
use std::path::{Path, PathBuf};

const VARIABLE: &str = "SEAMWILLOW_BLESS";
const PAGE: &str = "docs/CHECKS.md";
const HEADING: &str = "\n## Inventory\n";
const COLUMNS: [&str; 9] = [
    "code",
    "definitions",
    "laws",
    "inner",
    "examples",
    "proofs",
    "functions",
    "public",
    "must-fail edits",
];

/// A path of the repository.
fn path(name: &str) -> PathBuf {
    Path::new(env!("CARGO_MANIFEST_DIR")).join("..").join(name)
}

fn read(path: &Path) -> String {
    fs::read_to_string(path).unwrap_or_else(|error| panic!("{}: {error}", path.display()))
}

/// What a folder holds, by name; nothing where there is no such folder.
fn entries(folder: &Path) -> Vec<PathBuf> {
    let entries = fs::read_dir(folder).into_iter().flatten().flatten();
    let mut entries: Vec<PathBuf> = entries.map(|entry| entry.path()).collect();
    entries.sort();
    entries
}

/// A folder's own files of a kind.
fn files(folder: &Path, kind: &str) -> Vec<PathBuf> {
    let mut files = entries(folder);
    files.retain(|path| path.is_file() && path.extension() == Some(OsStr::new(kind)));
    files
}

/// The files of a kind in a folder and in the folders under it.
fn files_under(folder: &Path, kind: &str) -> Vec<PathBuf> {
    let folders = entries(folder).into_iter().filter(|path| path.is_dir());
    let below = folders.flat_map(|folder| files_under(&folder, kind));
    files(folder, kind).into_iter().chain(below).collect()
}

/// Whether a file only lists modules, as every `Lib.antt` does.
fn lists_modules(text: &str) -> bool {
    let beginnings = ["pub mod ", "mod ", "--"];
    let lists = |line: &str| beginnings.iter().any(|begin| line.starts_with(begin));
    text.lines().all(|line| line.is_empty() || lists(line))
}

/// Lines with comments and blank lines, lists of modules left out.
fn lines(files: &[PathBuf]) -> usize {
    let texts = files.iter().map(|path| read(path));
    let texts = texts.filter(|text| !lists_modules(text));
    texts.map(|text| text.lines().count()).sum()
}

/// How many functions begin in one of these ways.
fn functions(files: &[PathBuf], ways: &[&str]) -> usize {
    let begins = |line: &&str| ways.iter().any(|way| line.trim_start().starts_with(way));
    let texts = files.iter().map(|path| read(path));
    texts.map(|text| text.lines().filter(begins).count()).sum()
}

const PUBLIC: [&str; 2] = ["pub fn ", "pub extern \"C\" fn "];
const PRIVATE: [&str; 2] = ["fn ", "pub(crate) fn "];

/// The names of the crates, in the order of `crates.txt`.
fn crates() -> Vec<String> {
    let list = read(&path("crates.txt"));
    let lines = list.lines().filter(|line| !line.starts_with('#'));
    let names = lines.filter_map(|line| line.split_once(':'));
    let names = names.filter_map(|(name, _)| name.split_whitespace().next());
    names.map(str::to_string).collect()
}

/// A crate's row of the inventory, in the order of `COLUMNS`.
fn counted(name: &str) -> [usize; COLUMNS.len()] {
    let folder = path("crates").join(name);
    let code = files_under(&folder.join("src"), "rt");
    let specs = folder.join("specs");
    let under = |part: &str| lines(&files_under(&folder.join(part), "antt"));
    let proved = under("proofs/Laws");
    let public = functions(&code, &PUBLIC);
    [
        lines(&code),
        lines(&files(&specs, "antt")),
        under("specs/Laws") + proved,
        under("specs/Inner"),
        under("specs/Examples"),
        under("proofs") - proved,
        public + functions(&code, &PRIVATE),
        public,
        files(&folder.join("must-fail"), "edit").len(),
    ]
}

fn row(name: &str, cells: impl IntoIterator<Item = impl ToString>) -> String {
    let cells = cells
        .into_iter()
        .map(|cell| format!(" {} |", cell.to_string()));
    format!("| {name} |{}\n", cells.collect::<String>())
}

/// The inventory as the page has it.
fn inventory() -> String {
    let mut table = row("crate", COLUMNS);
    table += &format!("|{}\n", "---|".repeat(COLUMNS.len() + 1));
    let mut sums = [0; COLUMNS.len()];
    for name in crates() {
        let counts = counted(&name);
        for (sum, count) in sums.iter_mut().zip(counts) {
            *sum += count;
        }
        table += &row(&format!("`{name}`"), counts);
    }
    table + &row("all", sums)
}

/// The page before the first table under the heading, that table, and the page after it.
fn cut(page: &str) -> [&str; 3] {
    let heading = page.find(HEADING).expect("the page has the heading");
    let table = page[heading..].find("\n|").expect("it has a table");
    let (before, rest) = page.split_at(heading + table + 1);
    let rows = rest.split_inclusive('\n');
    let rows = rows.take_while(|line| line.starts_with('|'));
    let (table, after) = rest.split_at(rows.map(str::len).sum());
    [before, table, after]
}

#[test]
fn the_inventory_is_what_the_tree_has() {
    let page = read(&path(PAGE));
    let [before, table, after] = cut(&page);
    let inventory = inventory();
    if env::var_os(VARIABLE).is_some_and(|value| value == "1") {
        let page = [before, &inventory, after].concat();
        fs::write(path(PAGE), page).expect("the page can be written");
    } else {
        assert!(
            table == inventory,
            "{PAGE} has another inventory; {VARIABLE}=1 writes it anew\n{inventory}"
        );
    }
}

/// README says how many definition files there are to read, and how many crates and edits the gate passes.
#[test]
fn the_readme_counts_what_the_tree_has() {
    let count = |folder: &str, kind: &str| -> usize {
        let found = crates().into_iter().map(|name| {
            let found = files(&path("crates").join(name).join(folder), kind);
            found
                .iter()
                .filter(|file| !lists_modules(&read(file)))
                .count()
        });
        found.sum()
    };
    let (edits, definitions) = (count("must-fail", "edit"), count("specs", "antt"));
    let readme = read(&path("README.md")).replace('\n', " ");
    for said in [
        format!("`{} passed, 0 failed`", crates().len() + edits),
        format!(
            "{} crates proved and {edits} must-fail edits",
            crates().len()
        ),
        format!("{definitions} files of definitions"),
    ] {
        assert!(readme.contains(&said), "README.md does not say: {said}");
    }
}

/// What an edit changes, as its first line says it, and the folder of the files that it edits then. A contract stands
/// in the code, or in `specs/` where it has a name there.
const KINDS: [(&str, &[&str]); 4] = [
    ("# changes the code: ", &["src/"]),
    ("# changes a definition: ", &["specs/"]),
    ("# changes a contract: ", &["src/", "specs/"]),
    ("# changes code and definition: ", &["src/", "specs/"]),
];

/// Whether a line has this beginning and says something after it.
fn says(line: &str, beginning: &str) -> bool {
    let rest = line.strip_prefix(beginning);
    rest.is_some_and(|rest| !rest.is_empty())
}

/// Whether an edit begins with its two lines, has no other comment, and edits files of the kind that it names.
fn is_told(edit: &str) -> bool {
    let lines: Vec<&str> = edit.lines().collect();
    let [changes, refused, rest @ ..] = lines.as_slice() else {
        return false;
    };
    let Some((_, folders)) = KINDS.iter().find(|(kind, _)| says(changes, kind)) else {
        return false;
    };
    let files = rest.iter().filter_map(|line| line.strip_prefix("file: "));
    let files: Vec<&str> = files.collect();
    says(refused, "# refused by ")
        && !rest.iter().any(|line| line.starts_with('#'))
        && !files.is_empty()
        && files
            .iter()
            .all(|file| folders.iter().any(|folder| file.starts_with(folder)))
}

#[test]
fn an_edit_that_says_too_little_is_told() {
    let good = "# changes the code: 1 for 0\n# refused by `f`\nfile: src/lib.rt\nold: 0\nnew: 1\n";
    assert!(is_told(good));
    for (from, to) in [
        ("# changes the code: 1 for 0\n", ""),
        ("1 for 0", ""),
        ("refused by `f`", "refused"),
        ("the code", "a definition"),
        ("file: src/lib.rt\n", ""),
        ("new: 1", "# a remark\nnew: 1"),
    ] {
        assert!(!is_told(&good.replace(from, to)), "{from:?} for {to:?}");
    }
}

#[test]
fn every_edit_says_what_it_changes_and_what_refuses_it() {
    let folders = crates().into_iter();
    let folders = folders.map(|name| path("crates").join(name).join("must-fail"));
    let edits = folders.flat_map(|folder| files(&folder, "edit"));
    let others = edits.filter(|edit| !is_told(&read(edit)));
    let others: Vec<String> = others.map(|edit| format!("{}\n", edit.display())).collect();
    assert!(
        others.is_empty(),
        "edits that do not begin with `# changes ..` and `# refused by ..`, as {PAGE} has it:\n{}",
        others.concat()
    );
}
