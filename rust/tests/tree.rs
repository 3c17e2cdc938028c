//! The shape of the tree: where `crates/*/specs` has definitions and where theorems, and what the
//! groups of `rust/src` name.

use seamwillow_tests::harness::repository::{declarations, files, place, read, Kind};
use std::collections::BTreeSet;

fn specs() -> impl Iterator<Item = String> {
    let files = files("crates", ".antt").into_iter();
    files.filter(|file| file.contains("/specs/"))
}

/// The files of specs, and of the laws that stand among the proofs.
fn stated() -> impl Iterator<Item = String> {
    let files = files("crates", ".antt").into_iter();
    let parts = ["/specs/", "/proofs/Laws", "/proofs/Lib."];
    files.filter(move |file| parts.iter().any(|part| file.contains(part)))
}

/// `crates/NAME/specs/FILE`, in no folder of specs.
fn holds_definitions(file: &str) -> bool {
    file.contains("/specs/") && file.matches('/').count() == 3
}

/// The file of specs or proofs that a line imports from, and the names as the line's file has them;
/// no names where it imports the file whole. The kit's crates have no file here.
fn import(line: &str) -> Option<(String, Vec<&str>)> {
    let (_, line) = line.split_once("use Rattle.")?;
    let (name, line) = line.split_once('.')?;
    let (folder, line) = line.split_once('.')?;
    let (path, names) = line.split_once(".{").unwrap_or((line, ""));
    let path = path.split([' ', ';']).next()?;
    let names = names.split('}').next()?.split(',');
    let names = names.filter_map(|name| name.split_whitespace().last());
    let file = format!("crates/{name}/{folder}/{}.antt", path.replace('.', "/"));
    let is_file = place(&format!("crates/{name}")).is_dir() && !path.starts_with("declared.");
    is_file.then(|| (file, names.collect()))
}

/// The names in a line of a contract; of a field's path that which the field is of.
fn names(line: &str) -> impl Iterator<Item = &str> {
    let words = line.split(|c: char| c.is_whitespace() || "(){},⌜⌝".contains(c));
    words.filter_map(|word| word.split('.').next())
}

/// The files of specs or proofs that the contracts of a file's public functions have names from.
fn cited(code: &str) -> Vec<String> {
    let (mut public, mut words) = (false, BTreeSet::new());
    for line in code.lines().map(str::trim_start) {
        if line.contains("fn ") && line.contains('(') {
            public = line.starts_with("pub ");
        } else if public && (line.starts_with("ensures") || line.starts_with("requires")) {
            words.extend(names(line));
        }
    }
    let imports = code.lines().filter_map(import);
    let cited = imports
        .filter(|(_, names)| names.is_empty() || names.iter().any(|name| words.contains(name)));
    cited.map(|(file, _)| file).collect()
}

/// What the contracts of public functions rest on: a file, and a file that imports it. Of a file of
/// proofs it is enough to know that it is reached.
fn reached() -> Vec<(String, String)> {
    let mut next = Vec::new();
    for library in files("crates", "/src/lib.rt") {
        let text = read(&library);
        let modules = text
            .lines()
            .filter_map(|line| line.strip_prefix("pub mod "));
        let modules = modules.filter_map(|line| line.split(';').next());
        let modules = modules.map(|module| library.replace("lib.rt", &format!("{module}.rt")));
        for file in modules.chain([library.clone()]) {
            let cited = cited(&read(&file)).into_iter();
            next.extend(cited.map(|found| (found, file.clone())));
        }
    }
    let (mut seen, mut reached) = (BTreeSet::new(), Vec::new());
    while let Some((file, by)) = next.pop() {
        if seen.insert(file.clone()) {
            if file.contains("/specs/") {
                let text = read(&file);
                let imports = text.lines().filter_map(import);
                next.extend(imports.map(|(found, _)| (found, file.clone())));
            }
            reached.push((file, by));
        }
    }
    reached
}

#[test]
fn what_a_public_contract_cites() {
    let code = "\
ghost use Rattle.std.specs.Prelude.{◌≡◌};
ghost use Rattle.parts.specs.Table.{length_at};
ghost use Rattle.parts.specs.FrameMemory.{code};
ghost use Rattle.parts.specs.Laws.Frames.{inner, total as sum};
ghost use Rattle.parts.proofs.Laws.Owned.{owned};
ghost use Rattle.parts.specs.Laws.Whole as whole;
ghost use Rattle.parts.specs.declared.table.Part.{Part};
pub(crate) fn f()
    ensures { result ≡ length_at 0 }
pub fn g()
    requires* { owned.new ∗ ⌜ r.code ≡ 0 ⌝ }
    ensures value { result ≡ (sum Part).code }
";
    let files = ["specs/Laws/Frames", "proofs/Laws/Owned", "specs/Laws/Whole"];
    let files = files.map(|name| format!("crates/parts/{name}.antt"));
    assert_eq!(cited(code), files);
}

#[test]
fn no_theorem_stands_among_definitions() {
    let mut wrong = String::new();
    for file in specs().filter(|file| holds_definitions(file)) {
        for found in declarations(&read(&file)) {
            if found.kind == Kind::Theorem {
                wrong += &format!("{file}: {}\n", found.name);
            }
        }
    }
    assert!(wrong.is_empty(), "\n{wrong}");
}

#[test]
fn public_contracts_rest_on_definitions() {
    let reached = reached();
    let mut wrong = String::new();
    for (file, by) in reached.iter().filter(|(file, _)| !holds_definitions(file)) {
        wrong += &format!("{by} imports {file}\n");
    }
    let reached: BTreeSet<_> = reached.iter().map(|(file, _)| file.as_str()).collect();
    for file in specs().filter(|file| holds_definitions(file) && !lists_modules(file)) {
        if !reached.contains(file.as_str()) {
            wrong += &format!("{file} serves no public contract\n");
        }
    }
    assert!(wrong.is_empty(), "\n{wrong}");
}

/// The lists of modules, one for the crate and one for each folder of specs.
const LISTS: [&str; 4] = ["Lib", "Laws", "Inner", "Examples"];

fn lists_modules(file: &str) -> bool {
    let is_list = |folder: &str, list: &str| file.ends_with(&format!("/{folder}/{list}.antt"));
    LISTS
        .iter()
        .any(|list| is_list("specs", list) || is_list("proofs", list))
}

#[test]
fn every_file_of_specs_is_in_its_list() {
    let mut wrong = String::new();
    for file in stated().filter(|file| !file.ends_with("/Lib.antt")) {
        let (folder, name) = file
            .rsplit_once('/')
            .expect("a file of specs is in a folder");
        let list = match folder.ends_with("/specs") || folder.ends_with("/proofs") {
            true => format!("{folder}/Lib.antt"),
            false => format!("{folder}.antt"),
        };
        let line = format!("pub mod {}  -- ", name.trim_end_matches(".antt"));
        if !lists_modules(&list) || !read(&list).contains(&line) {
            wrong += &format!("{file} is not in {list}\n");
        }
    }
    assert!(wrong.is_empty(), "\n{wrong}");
}

#[test]
fn every_module_of_specs_says_what_it_holds() {
    let mut wrong = String::new();
    for file in stated() {
        for line in read(&file).lines() {
            if line.starts_with("pub mod ") && !line.contains("  -- ") {
                wrong += &format!("{file}: {line}\n");
            }
        }
    }
    assert!(wrong.is_empty(), "\n{wrong}");
}

#[test]
fn the_independent_implementation_stands_alone() {
    let stands_without = |group: &str, other: &str| {
        for file in files(&format!("rust/src/{group}"), ".rs") {
            assert!(!read(&file).contains(other), "{file} names {other}");
        }
    };
    stands_without("independent", "seamwillow_library");
    stands_without("independent", "harness::");
    stands_without("independent", "generate::");
    stands_without("generate", "seamwillow_library");
    stands_without("generate", "harness::");
}
