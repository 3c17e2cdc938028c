//! The built programs, as the tests run them.

use std::env;
use std::io::{ErrorKind, Result, Write};
use std::os::fd::OwnedFd;
use std::os::unix::net::UnixDatagram;
use std::path::{Path, PathBuf};
use std::process::{Child, Command, Output, Stdio};

/// A folder, which can be opened as standard input but not read.
pub const FOLDER: &str = env!("CARGO_MANIFEST_DIR");

/// A program, and the environment variable that may name its file.
pub struct Program {
    pub name: &'static str,
    pub variable: &'static str,
}

pub const LOAD50: Program = Program {
    name: "load50",
    variable: "SEAMWILLOW_LOAD50",
};

pub const BUILD: Program = Program {
    name: "build",
    variable: "SEAMWILLOW_BUILD",
};

impl Program {
    fn file(&self) -> PathBuf {
        let Self { name, variable } = self;
        let built = || Path::new(FOLDER).join(format!("../crates/{name}/out/{name}"));
        let file = env::var_os(variable).map_or_else(built, PathBuf::from);
        assert!(
            file.is_file(),
            "{} is missing: run `rt run` in crates/{name} first, or let {variable} name the program",
            file.display()
        );
        file
    }

    pub fn start(&self, arguments: &[&str], input: Stdio) -> Child {
        self.start_into(arguments, input, Stdio::piped())
    }

    pub fn start_into(&self, arguments: &[&str], input: Stdio, output: Stdio) -> Child {
        let mut command = Command::new(self.file());
        command.args(arguments).stdin(input);
        command.stdout(output).stderr(Stdio::piped());
        command
            .spawn()
            .unwrap_or_else(|error| panic!("{}: {error}", self.name))
    }

    /// A run on a pipe; a read may give several pieces at once.
    pub fn run_on_pipe(&self, arguments: &[&str], input: &[u8], length: usize) -> Output {
        let mut child = self.start(arguments, Stdio::piped());
        let mut pipe = child.stdin.take().expect("the input is a pipe");
        feed(input.chunks(length), |piece| {
            pipe.write_all(piece)?;
            pipe.flush()
        });
        drop(pipe);
        finished(child)
    }

    /// A run on a socket that keeps messages apart: each read gives one piece, an empty one the end.
    pub fn run_on_messages(&self, arguments: &[&str], input: &[u8], length: usize) -> Output {
        let (ours, theirs) = UnixDatagram::pair().expect("there are sockets");
        let child = self.start(arguments, OwnedFd::from(theirs).into());
        let last: &[u8] = &[];
        feed(input.chunks(length).chain([last]), |piece| {
            ours.send(piece).map(drop)
        });
        finished(child)
    }
}

/// Sends pieces to a program, all or up to its end.
fn feed<'a>(pieces: impl Iterator<Item = &'a [u8]>, mut send: impl FnMut(&'a [u8]) -> Result<()>) {
    for piece in pieces {
        match send(piece).map_err(|error| error.kind()) {
            Ok(()) => {}
            // A program may end before its input does.
            Err(ErrorKind::BrokenPipe | ErrorKind::ConnectionRefused) => return,
            Err(error) => panic!("a piece was not sent: {error}"),
        }
    }
}

pub fn finished(child: Child) -> Output {
    child.wait_with_output().expect("the program is waited for")
}

/// Each byte as a character, to compare and to show.
pub fn text(bytes: &[u8]) -> String {
    bytes.iter().map(|&byte| char::from(byte)).collect()
}
