//! Why a run ends without a yes, and its exit status.

use crate::words::{plain, seen};
use std::fmt;
use std::io::{self, Write};

/// The answer is no.
pub const NO: u8 = 1;
/// Usage, or a file that cannot be read or written.
pub const TROUBLE: u8 = 2;

#[derive(Debug)]
pub enum Failure {
    /// The answer is no and stands on standard output.
    Told,
    /// Something went wrong, and standard error has it already.
    ToldTrouble,
    /// The answer is no, with what is to be told.
    Refused(Message),
    /// The arguments make no sense.
    Usage(String),
    /// A file, or the system, does not let the work be done.
    Trouble(Message),
    /// Nobody reads the output any more.
    ClosedPipe,
}

/// What standard error says: FILE: offset N: words (number).
#[derive(Debug, Default)]
pub struct Message {
    pub file: Option<String>,
    pub offset: Option<u64>,
    pub words: String,
    pub number: Option<u32>,
    /// Lines after the first, on what stands there.
    pub context: Vec<String>,
}

impl Message {
    pub fn of_file(file: &str, words: impl Into<String>) -> Self {
        Self {
            file: Some(seen(file).to_string()),
            words: words.into(),
            ..Self::default()
        }
    }
}

/// File names and words can hold what a user or a desk wrote, so all of them are made plain here.
impl fmt::Display for Message {
    fn fmt(&self, out: &mut fmt::Formatter) -> fmt::Result {
        if let Some(file) = &self.file {
            write!(out, "{}: ", plain(file))?;
        }
        if let Some(offset) = self.offset {
            write!(out, "offset {offset}: ")?;
        }
        write!(out, "{}", plain(&self.words))?;
        if let Some(number) = self.number {
            write!(out, " ({number})")?;
        }
        for line in &self.context {
            write!(out, "\n  {}", plain(line))?;
        }
        Ok(())
    }
}

impl Failure {
    pub fn usage(words: impl Into<String>) -> Self {
        Self::Usage(words.into())
    }

    /// A file with which something went wrong.
    pub fn file(name: &str, error: &io::Error) -> Self {
        Self::Trouble(Message::of_file(name, system_words(error)))
    }

    /// What is told of a file.
    pub fn message(&self) -> Option<&Message> {
        match self {
            Self::Refused(message) | Self::Trouble(message) => Some(message),
            _ => None,
        }
    }

    pub fn status(&self) -> u8 {
        match self {
            Self::Told | Self::Refused(_) => NO,
            Self::Usage(_) | Self::Trouble(_) | Self::ToldTrouble | Self::ClosedPipe => TROUBLE,
        }
    }

    /// Says on standard error what has not been said.
    pub fn tell(&self) {
        let words = match self {
            Self::Refused(message) | Self::Trouble(message) => message.to_string(),
            Self::Usage(words) => format!("{}; see --help", plain(words)),
            Self::Told | Self::ToldTrouble | Self::ClosedPipe => return,
        };
        // Where standard error is closed too there is nobody left to tell.
        let _ = writeln!(io::stderr(), "seamwillow: {words}");
    }
}

/// The system's words without the number that Rust puts behind them.
pub fn system_words(error: &io::Error) -> String {
    let words = error.to_string();
    match words.split_once(" (os error") {
        Some((words, _)) => words.to_string(),
        None => words,
    }
}
