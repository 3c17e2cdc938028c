//! Files to read, whole; `-` is standard input.

use crate::failure::{Failure, Message};
use crate::words::{plain, seen};
use std::ffi::OsStr;
use std::fs::File;
use std::io::{self, Read};

/// No stream is read beyond this: the longest configuration of a part has 1.7 million bytes.
pub const MOST_BYTES: u64 = 16 * 1024 * 1024;

pub const STANDARD_INPUT: &str = "standard input";

/// A file's bytes, and its name.
pub struct Input {
    /// The name as it is shown.
    pub name: String,
    /// The name as it is, for programs.
    pub file: String,
    pub bytes: Vec<u8>,
}

impl Input {
    /// A file that is read up to [`MOST_BYTES`].
    pub fn read(path: &OsStr) -> Result<Self, Failure> {
        let input = Self::read_up_to(path, MOST_BYTES + 1)?;
        if input.bytes.len() as u64 > MOST_BYTES {
            let words = format!("longer than {MOST_BYTES} bytes, and no more are read");
            return Err(Failure::Trouble(Message::of_file(&input.name, words)));
        }
        Ok(input)
    }

    /// A file of any length.
    pub fn read_all(path: &OsStr) -> Result<Self, Failure> {
        Self::read_up_to(path, u64::MAX)
    }

    fn read_up_to(path: &OsStr, most: u64) -> Result<Self, Failure> {
        let file = file_name(path);
        let bytes = match path == "-" {
            true => bytes_of(io::stdin().lock(), most),
            false => File::open(path).and_then(|file| bytes_of(file, most)),
        };
        let bytes = bytes.map_err(|error| Failure::file(&file, &error))?;
        let name = plain(seen(&file));
        Ok(Self { name, file, bytes })
    }
}

/// A file's name as it is, for programs.
pub fn file_name(path: &OsStr) -> String {
    match path == "-" {
        true => STANDARD_INPUT.to_string(),
        false => path.to_string_lossy().into_owned(),
    }
}

fn bytes_of(file: impl Read, most: u64) -> io::Result<Vec<u8>> {
    let mut bytes = Vec::new();
    file.take(most).read_to_end(&mut bytes)?;
    Ok(bytes)
}
