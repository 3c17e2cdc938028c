//! The project's folder, programs that must succeed, and tools that the machine may have.

use crate::harness::repository::place;
use std::env;
use std::io::{self, Write};
use std::path::PathBuf;
use std::process::{Command, Output, Stdio};

/// What is asked of C that includes the header.
pub const STRICT_C: [&str; 5] = ["-std=c99", "-Wall", "-Wextra", "-pedantic", "-Werror"];

pub fn c_compiler() -> Command {
    Command::new(env::var_os("CC").unwrap_or_else(|| "cc".into()))
}

/// The static library as `rt` writes it.
pub fn archive() -> PathBuf {
    root().join("crates/seamwillow/out/libseamwillow.a")
}

/// Whether a tool can be run; where it cannot, the test's output says by name what was skipped.
pub fn has(tool: &str, skipped: &str) -> bool {
    /// What a wrapper without its tool answers.
    const NOT_FOUND: i32 = 127;
    let mut version = Command::new(tool);
    version.arg("--version").stdin(Stdio::null());
    version.stdout(Stdio::null()).stderr(Stdio::null());
    let status = version.status();
    let is_there = status.is_ok_and(|status| status.code() != Some(NOT_FOUND));
    if !is_there {
        // Not by println, which cargo keeps to itself where the test passes.
        let _ = writeln!(io::stderr(), "SKIPPED: {skipped}: there is no {tool}");
    }
    is_there
}

/// The project's folder.
pub fn root() -> PathBuf {
    place("")
        .canonicalize()
        .expect("the project is where it was built")
}

/// The output of a program that ran, whatever it answered.
pub fn ran(command: &mut Command) -> Output {
    let output = command.output();
    output.unwrap_or_else(|error| panic!("{command:?}: {error}"))
}

/// What a program that must succeed wrote to standard output.
pub fn run(command: &mut Command) -> String {
    let output = ran(command);
    let text = String::from_utf8_lossy(&output.stdout).into_owned();
    let error = String::from_utf8_lossy(&output.stderr);
    assert!(output.status.success(), "{command:?}:\n{text}{error}");
    text
}
