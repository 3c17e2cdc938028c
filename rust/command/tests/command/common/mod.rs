//! What the tests of the command share: scratch folders and runs of the built binary.

pub mod expected;
pub mod refusals;
pub mod streams;

use seamwillow_tests::harness::tools::has;
use std::ffi::OsStr;
use std::fs;
use std::io::{ErrorKind, Write};
use std::path::{Path, PathBuf};
use std::process::{Command, Output, Stdio};
use std::sync::atomic::{AtomicUsize, Ordering};

pub const BINARY: &str = env!("CARGO_BIN_EXE_seamwillow");

/// A folder of a test's own, empty at first and removed at the end.
pub struct Scratch {
    folder: PathBuf,
}

impl Scratch {
    pub fn new(name: &str) -> Self {
        // Two tests may choose the same name.
        static COUNT: AtomicUsize = AtomicUsize::new(0);
        let name = format!("{name}-{}", COUNT.fetch_add(1, Ordering::Relaxed));
        let folder = Path::new(env!("CARGO_TARGET_TMPDIR")).join(name);
        // What a run that was broken off may have left.
        let _ = fs::remove_dir_all(&folder);
        fs::create_dir_all(&folder).expect("the scratch folder can be made");
        Self { folder }
    }

    pub fn path(&self, name: impl AsRef<OsStr>) -> PathBuf {
        self.folder.join(name.as_ref())
    }

    pub fn write(&self, name: impl AsRef<OsStr>, bytes: &[u8]) {
        fs::write(self.path(name), bytes).expect("the scratch folder can be written");
    }

    pub fn read(&self, name: impl AsRef<OsStr>) -> Vec<u8> {
        let path = self.path(name);
        fs::read(&path).unwrap_or_else(|error| panic!("{}: {error}", path.display()))
    }

    /// The names of its files, in order.
    pub fn names(&self) -> Vec<String> {
        let files = fs::read_dir(&self.folder).expect("the scratch folder can be read");
        let name = |file: fs::DirEntry| file.file_name().to_string_lossy().into_owned();
        let mut names: Vec<String> = files.flatten().map(name).collect();
        names.sort();
        names
    }

    /// The command, to be run in the folder.
    pub fn command<S: AsRef<OsStr>>(&self, arguments: impl IntoIterator<Item = S>) -> Command {
        let mut command = Command::new(BINARY);
        command.args(arguments).current_dir(&self.folder);
        command.stdin(Stdio::null()).env_remove("NO_COLOR");
        command
    }

    /// A line of shell in the folder; `"$0"` is the command.
    pub fn shell(&self, line: &str) -> Command {
        let mut command = Command::new("sh");
        command.args(["-c", line, BINARY]).current_dir(&self.folder);
        command.stdin(Stdio::null()).env_remove("NO_COLOR");
        command
    }

    /// A run on a terminal: its status, and what it writes with the line ends that a terminal makes
    /// taken off; none without `script`.
    pub fn on_terminal(&self, line: &str, colour: &[(&str, &str)]) -> Option<(i32, String)> {
        if !has("script", &format!("{line} on a terminal")) {
            return None;
        }
        let mut command = self.shell(&format!("script -qec \"$0 {line}\" /dev/null"));
        command.envs(colour.iter().copied());
        let output = command.output().expect("script starts");
        let text = String::from_utf8_lossy(&output.stdout).replace("\r\n", "\n");
        Some((output.status.code().unwrap_or_default(), text))
    }

    /// A run with arguments that stand apart from each other by spaces.
    pub fn run(&self, arguments: &str) -> Told {
        Told::of(self.command(arguments.split_whitespace()))
    }
}

impl Drop for Scratch {
    fn drop(&mut self) {
        // What is left in cargo's own folder harms nobody.
        let _ = fs::remove_dir_all(&self.folder);
    }
}

/// What a run told.
#[derive(Clone, PartialEq, Eq, Debug)]
pub struct Told {
    pub out: Vec<u8>,
    pub err: String,
    pub status: i32,
}

impl Told {
    pub fn of(mut command: Command) -> Self {
        Self::from(command.output().expect("the command starts"))
    }

    /// A run with something on standard input.
    pub fn of_input(mut command: Command, input: &[u8]) -> Self {
        command.stdin(Stdio::piped());
        command.stdout(Stdio::piped()).stderr(Stdio::piped());
        let mut child = command.spawn().expect("the command starts");
        let mut pipe = child.stdin.take().expect("the input is a pipe");
        match pipe.write_all(input) {
            // The command may end before its input does.
            Err(error) if error.kind() != ErrorKind::BrokenPipe => panic!("{error}"),
            _ => drop(pipe),
        }
        Self::from(child.wait_with_output().expect("the command is waited for"))
    }

    /// Every run ends by itself, with one of three statuses and without a panic.
    fn from(output: Output) -> Self {
        let err = String::from_utf8_lossy(&output.stderr).into_owned();
        assert!(!err.contains("panicked"), "{err}");
        let status = output.status.code();
        let status = status.unwrap_or_else(|| panic!("{}: {err}", output.status));
        assert!((0..=2).contains(&status), "status {status}: {err}");
        let out = output.stdout;
        Self { out, err, status }
    }

    pub fn text(&self) -> String {
        String::from_utf8(self.out.clone()).expect("standard output is text")
    }

    /// Asserts a status, and one line on standard error that holds some words.
    pub fn assert_told(&self, status: i32, words: &str) {
        assert_eq!(self.status, status, "{self:?}");
        let line = self.err.strip_suffix('\n').unwrap_or_default();
        let is_line = line.starts_with("seamwillow: ") && !line.contains('\n');
        assert!(is_line && line.contains(words), "{words}: {self:?}");
    }
}
