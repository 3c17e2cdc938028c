//! The commands of README and USING give what they show.
//!
//! A line `$ COMMAND` of a code block is run, and what it prints must be the lines that follow it,
//! up to the next command or the block's end. A block after "in `NAME`:" is put into that file.

use crate::common::Scratch;
use seamwillow_tests::harness::tools::{has, ran, root};
use std::env;
use std::fs;
use std::iter;
use std::os::unix::fs::symlink;
use std::path::Path;
use std::process::{Command, Stdio};

const PYTHON: &str = "python3";

/// What the commands read and do not change.
const READ: [&str; 3] = ["crates", "include", "rust"];

/// Where `rt` leaves what it built, in a crate's folder.
const BUILT: &str = "/out/";

/// A code block, and the file that the line before it names.
struct Block {
    file: Option<String>,
    lines: Vec<String>,
}

/// The indented code blocks of a document, in order; blank lines within one belong to it.
fn blocks(document: &str) -> Vec<Block> {
    let mut blocks: Vec<Block> = Vec::new();
    let mut before = Some("");
    let mut blank = 0;
    for line in document.lines() {
        match line.strip_prefix("    ") {
            Some(code) => {
                // A line of text has come since the last block.
                if let Some(text) = before.take() {
                    let (file, lines) = (named_file(text), Vec::new());
                    blocks.push(Block { file, lines });
                    blank = 0;
                }
                if let Some(block) = blocks.last_mut() {
                    block.lines.extend(iter::repeat_n(String::new(), blank));
                    block.lines.push(code.to_string());
                }
                blank = 0;
            }
            None if line.is_empty() => blank += 1,
            None => before = Some(line),
        }
    }
    blocks
}

/// NAME of a line that ends with "in `NAME`:".
fn named_file(line: &str) -> Option<String> {
    let (_, name) = line.strip_suffix("`:")?.rsplit_once("in `")?;
    Some(name.to_string())
}

/// The commands of a block, each with the lines that it must print.
fn commands(block: &Block) -> Vec<(String, String)> {
    let mut commands: Vec<(String, String)> = Vec::new();
    for line in &block.lines {
        match (line.strip_prefix("$ "), commands.last_mut()) {
            (Some(command), _) => commands.push((command.to_string(), String::new())),
            (None, Some((_, output))) => {
                output.push_str(line);
                output.push('\n');
            }
            (None, None) => {}
        }
    }
    commands
}

/// A folder as the project's, with examples that may be written over.
fn folder(name: &str) -> Scratch {
    let scratch = Scratch::new(name);
    for entry in READ {
        symlink(root().join(entry), scratch.path(entry)).expect("a link is made");
    }
    let copies = scratch.path("examples");
    fs::create_dir(&copies).expect("a folder is made");
    let examples = fs::read_dir(root().join("examples")).expect("there are examples");
    for example in examples.map(|it| it.expect("an example can be read")) {
        fs::copy(example.path(), copies.join(example.file_name())).expect("a copy is made");
    }
    scratch
}

/// What a command prints, on standard output and standard error in turn.
fn printed(scratch: &Scratch, command: &str) -> String {
    let binary = Path::new(env!("CARGO_BIN_EXE_seamwillow"));
    let programs = binary.parent().expect("the binary is in a folder");
    let path = env::var("PATH").unwrap_or_default();
    let output = ran(Command::new("sh")
        .args(["-c", &format!("exec 2>&1\n{command}")])
        .env("PATH", format!("{}:{path}", programs.display()))
        .current_dir(scratch.path(""))
        .stdin(Stdio::null()));
    String::from_utf8_lossy(&output.stdout).into_owned()
}

/// Asserts that the programs and the library that a command names are there.
fn assert_built(command: &str) {
    let is_built = |word: &&str| word.starts_with("crates/") && word.contains(BUILT);
    let mut files = command.split_whitespace().filter(is_built);
    let missing = files.find(|file| !root().join(file).is_file());
    assert_eq!(
        missing, None,
        "there is no such file: in its crate's folder `rt run` makes a program, `rt lib` the library"
    );
}

/// Runs a document's commands; how many there were.
fn run(document: &str) -> usize {
    let text = fs::read_to_string(root().join(document)).expect("the document can be read");
    let scratch = folder(&document.replace('/', "-"));
    let mut count = 0;
    for block in blocks(&text) {
        if let Some(file) = &block.file {
            let text = block.lines.join("\n") + "\n";
            fs::write(scratch.path(file), text).expect("a file is written");
        }
        for (command, output) in commands(&block) {
            if command.starts_with(PYTHON) && !has(PYTHON, &format!("{document}: {command}")) {
                continue;
            }
            assert_built(&command);
            // A blank line before the next command belongs to neither.
            let told = |text: &str| text.trim_end().to_string();
            assert_eq!(
                told(&printed(&scratch, &command)),
                told(&output),
                "{document}: {command}"
            );
            count += 1;
        }
    }
    count
}

#[test]
fn readme() {
    let count = run("README.md");
    println!("{count} commands of README.md");
    assert!(count >= 5);
}

#[test]
fn using() {
    let count = run("docs/USING.md");
    println!("{count} commands of docs/USING.md");
    assert!(count >= 15);
}

#[test]
fn examples() {
    let count = run("examples/README.md");
    println!("{count} commands of examples/README.md");
    assert!(count >= 2);
}
