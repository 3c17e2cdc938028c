//! The repository's files, and what those of `crates/*/specs` declare.

use std::fs;
use std::path::{Path, PathBuf};

/// Where a file or a folder lies whose path from the repository's root is given.
pub fn place(path: &str) -> PathBuf {
    Path::new(env!("CARGO_MANIFEST_DIR")).join("..").join(path)
}

pub fn read(path: &str) -> String {
    fs::read_to_string(place(path)).unwrap_or_else(|error| panic!("{path}: {error}"))
}

/// The files with an ending anywhere under a folder, as sorted paths from the root. What `rt` leaves in
/// a folder `out` is no part of the tree.
pub fn files(folder: &str, ending: &str) -> Vec<String> {
    let entries = fs::read_dir(place(folder)).unwrap_or_else(|error| panic!("{folder}: {error}"));
    let mut found = Vec::new();
    for entry in entries {
        let entry = entry.unwrap_or_else(|error| panic!("{folder}: {error}"));
        let path = format!("{folder}/{}", entry.file_name().to_string_lossy());
        if entry.path().is_dir() {
            if entry.file_name() != "out" {
                found.extend(files(&path, ending));
            }
        } else if path.ends_with(ending) {
            found.push(path);
        }
    }
    found.sort();
    found
}

#[derive(Clone, Copy, Debug, PartialEq)]
pub enum Kind {
    Definition,
    Theorem,
}

/// A declaration at the top of a file or in one of its modules, or a constructor of a `data`.
#[derive(Debug, PartialEq)]
pub struct Declaration<'a> {
    pub kind: Kind,
    pub name: &'a str,
}

/// Definitions are marked, since others look into them; what has a type and no mark is a theorem.
fn declaration(line: &str) -> Option<Declaration<'_>> {
    let mut words = line.split_whitespace().peekable();
    let marked = words.next_if(|word| matches!(*word, "abbrev" | "unfoldable"));
    words.next_if_eq(&"pub");
    let marked = marked.or(words.next_if(|word| matches!(*word, "data" | "record")));
    let name = words.next()?;
    let kind = match marked {
        Some(_) => Kind::Definition,
        None if matches!(name, "use" | "mod" | "module" | "unfolding" | "where" | "}") => {
            return None
        }
        // Its type follows, after parameters or on the next line.
        None if words.find(|word| matches!(*word, ":" | "=")) != Some("=") => Kind::Theorem,
        None => return None,
    };
    Some(Declaration { kind, name })
}

pub fn declarations(text: &str) -> Vec<Declaration<'_>> {
    let mut found = Vec::new();
    // How deep the innermost open module indents its declarations, and whether its head goes on.
    let mut depth = 0;
    let mut in_head = false;
    let mut in_data = false;
    for line in text.lines() {
        let words = line.trim_start();
        if words.is_empty() || words.starts_with("--") {
            continue;
        }
        let indent = line.len() - words.len();
        depth = depth.min(indent);
        if indent == depth {
            in_head = words.starts_with("module ");
            in_data = words.starts_with("data ") || words.starts_with("pub data ");
            found.extend(declaration(words));
        } else if in_data && indent == depth + 2 {
            found.extend(declaration(words).map(|constructor| Declaration {
                kind: Kind::Definition,
                ..constructor
            }));
        }
        if in_head && words.ends_with("where") {
            in_head = false;
            depth += 2;
        }
    }
    found
}

#[cfg(test)]
mod tests {
    use super::{declarations, Kind};

    #[test]
    fn definitions_and_theorems() {
        let text = "\
use lib.Dec.{eqb}
pub data Step : Type 0 where
  Write : ℕ → Step

pub record Column : Type 0 where
  pub block : ℕ

unfoldable pub total : ℕ → ℕ
total n = n

module _ (l : ℕ)
    (f : ℕ) where
  -- inner : not this
  abbrev Fits : ℕ → Type 0
  Fits n = n ≡ l

  pub fits : Fits l
  unfolding total
  fits = refl

last : total 1 ≡ 1
last = go 1
  where
    go : ℕ → total 1 ≡ 1
";
        let found: Vec<_> = declarations(text)
            .iter()
            .map(|declaration| (declaration.kind, declaration.name))
            .collect();
        assert_eq!(
            found,
            [
                (Kind::Definition, "Step"),
                (Kind::Definition, "Write"),
                (Kind::Definition, "Column"),
                (Kind::Definition, "total"),
                (Kind::Definition, "Fits"),
                (Kind::Theorem, "fits"),
                (Kind::Theorem, "last"),
            ]
        );
    }
}
