//! What is written: text on standard output, files whole or not at all.

use crate::failure::{Failure, Message};
use crate::files;
use std::env;
use std::ffi::OsStr;
use std::fs::{self, File};
use std::io::{self, ErrorKind, IsTerminal, Write};
use std::path::{Path, PathBuf};
use std::process;

pub const STANDARD_OUTPUT: &str = "standard output";
const NO_BINARY: &str = "a terminal takes no binary: name a file or use a pipe";
/// So many names are tried for the file that is written first.
const MOST_NAMES: u32 = 16;

/// Writes to standard output and waits until it is out.
pub fn print(text: &str) -> Result<(), Failure> {
    print_bytes(text.as_bytes())
}

fn print_bytes(bytes: &[u8]) -> Result<(), Failure> {
    let mut out = io::stdout().lock();
    let written = out.write_all(bytes).and_then(|()| out.flush());
    written.map_err(|error| match error.kind() {
        ErrorKind::BrokenPipe => Failure::ClosedPipe,
        _ => Failure::file(STANDARD_OUTPUT, &error),
    })
}

/// Whether colours are wanted where the text goes.
pub fn is_coloured() -> bool {
    let forbidden = env::var_os("NO_COLOR").is_some_and(|value| !value.is_empty());
    !forbidden && io::stdout().is_terminal()
}

/// Whether a path is `-` or another name of standard output, such as /dev/stdout.
pub fn is_standard(path: &OsStr) -> bool {
    path == "-" || files::is_opened_as(path, io::stdout())
}

/// Writes binary to a file or a pipe, but never to a terminal.
pub fn save_binary(path: &OsStr, bytes: &[u8]) -> Result<(), Failure> {
    if !is_standard(path) {
        return save(path, bytes, fill_with_binary);
    }
    if io::stdout().is_terminal() {
        let message = Message::of_file(STANDARD_OUTPUT, NO_BINARY);
        return Err(Failure::Trouble(message));
    }
    print_bytes(bytes)
}

/// Writes text to a file, or to standard output by any of its names.
pub fn save_text(path: &OsStr, text: &str) -> Result<(), Failure> {
    match is_standard(path) {
        true => print(text),
        false => save(path, text.as_bytes(), fill),
    }
}

/// Writes a file whole or not at all: a file beside it first, which then takes its name.
fn save(
    path: &OsStr,
    bytes: &[u8],
    fill_device: fn(File, &[u8]) -> io::Result<()>,
) -> Result<(), Failure> {
    let open = || File::options().write(true).open(path);
    let saved = match fs::metadata(path) {
        // A device or a pipe has no place for a second file beside it.
        Ok(it) if !it.is_file() => open().and_then(|file| fill_device(file, bytes)),
        // A file that may not be written is not replaced; a link keeps pointing to where it points.
        Ok(it) => open()
            .and_then(|_| fs::canonicalize(path))
            .and_then(|target| replace(&target, bytes, Some(it.permissions()))),
        Err(error) if error.kind() == ErrorKind::NotFound => {
            files::followed(path).and_then(|target| replace(&target, bytes, None))
        }
        // Links in a ring, for one, lead to no place for a file.
        Err(error) => Err(error),
    };
    let name = path.to_string_lossy();
    saved.map_err(|error| Failure::file(&name, &error))
}

fn replace(target: &Path, bytes: &[u8], permissions: Option<fs::Permissions>) -> io::Result<()> {
    let (beside, file) = file_beside(target)?;
    let written = fill_to_disk(file, bytes)
        .and_then(|()| permissions.map_or(Ok(()), |it| fs::set_permissions(&beside, it)))
        .and_then(|()| fs::rename(&beside, target));
    if written.is_err() {
        // What was begun is no file of the user's; that it cannot be removed changes no answer.
        let _ = fs::remove_file(&beside);
    }
    written
}

/// A new file in the target's folder. A run that was killed may have left one under a name that
/// this run would give, so further names are tried.
fn file_beside(target: &Path) -> io::Result<(PathBuf, File)> {
    let begun = |number: u32| {
        let name = format!(".seamwillow-{}-{number}.part", process::id());
        let path = target.with_file_name(name);
        let file = File::options().write(true).create_new(true).open(&path)?;
        Ok((path, file))
    };
    let is_taken = |it: &io::Result<_>| {
        let error = it.as_ref().err();
        error.is_some_and(|error| error.kind() == ErrorKind::AlreadyExists)
    };
    let mut beside = begun(0);
    for number in 1..MOST_NAMES {
        if !is_taken(&beside) {
            break;
        }
        beside = begun(number);
    }
    beside
}

/// Fills what is no terminal.
fn fill_with_binary(file: File, bytes: &[u8]) -> io::Result<()> {
    match file.is_terminal() {
        true => Err(io::Error::other(NO_BINARY)),
        false => fill(file, bytes),
    }
}

/// A disk may tell only at last that it is full, and the name must not be given before.
fn fill_to_disk(mut file: File, bytes: &[u8]) -> io::Result<()> {
    file.write_all(bytes)?;
    file.sync_all()
}

fn fill(mut file: File, bytes: &[u8]) -> io::Result<()> {
    file.write_all(bytes)?;
    file.flush()
}

/// Colours of a terminal; what they say stands in words too.
pub const GREEN: &str = "32";
pub const RED: &str = "31";
pub const CYAN: &str = "36";

/// The text in a colour, where colours are wanted.
pub fn painted(text: &str, colour: &str) -> String {
    match is_coloured() {
        true => format!("\x1b[1;{colour}m{text}\x1b[0m"),
        false => text.to_string(),
    }
}
