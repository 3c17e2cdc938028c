//! The system's side: files that cannot be read or written, pipes that close, disks that are full,
//! inputs that do not end, names that are no text, terminals.

mod targets;
mod words;

use crate::common::streams::{frame_write, full, layout, multi_frame_write, partial, stopped};
use crate::common::{Scratch, Told};
use seamwillow_tests::harness::json::Value;
use std::fs::{self, File, Permissions};
use std::io;
use std::os::unix::fs::PermissionsExt;

/// A folder with a good stream, a good layout and one that is refused.
fn scratch(name: &str) -> Scratch {
    let scratch = Scratch::new(name);
    scratch.write("good.bit", &partial(0));
    scratch.write("full.bit", &full(0));
    scratch.write("good.layout", &layout(0, &[frame_write(0, 3, 2)]));
    scratch.write("bad.layout", &[1, 0, 9]);
    scratch
}

const BUILD: &str = "build --part XC3S50 --frames 0:368";

#[test]
fn files_that_cannot_be_read() {
    let scratch = scratch("unreadable");
    fs::create_dir(scratch.path("folder")).expect("a folder can be made");
    for command in ["check", "explain", "layout", "load -o made.img", "map"] {
        let run = |file: &str| scratch.run(&format!("{command} {file}"));
        run("folder").assert_told(2, "folder: Is a directory");
        run("missing").assert_told(2, "missing: No such file or directory");
        run("good.bit/x").assert_told(2, "good.bit/x: Not a directory");
    }
    scratch.write("secret.bit", &partial(0));
    let path = scratch.path("secret.bit");
    fs::set_permissions(&path, Permissions::from_mode(0o000)).expect("it can be closed");
    match File::open(&path) {
        Ok(_) => println!("SKIPPED: an unreadable file, which this user can read"),
        Err(_) => scratch
            .run("check secret.bit")
            .assert_told(2, "Permission denied"),
    }
    assert!(!scratch.names().contains(&"made.img".to_string()));
}

/// Runs whose standard output nobody reads to its end.
#[test]
fn a_closed_pipe_is_quiet() {
    let scratch = scratch("pipe");
    let lines = [
        "explain --all full.bit",
        "check good.bit",
        "check --json good.bit",
        "parts",
        "numbers",
        "--help",
        "load good.bit -o -",
    ];
    for line in lines {
        let (reader, writer) = io::pipe().expect("there are pipes");
        drop(reader);
        let mut command = scratch.command(line.split(' '));
        command.stdout(writer);
        let told = Told::of(command);
        assert_eq!((told.status, told.err.as_str()), (2, ""), "{line}");
    }
    // The status of the command itself goes to a file, as the shell tells that of `head`.
    let first = "{ \"$0\" explain --all full.bit; echo $? >status; } | head -1";
    let told = Told::of(scratch.shell(first));
    assert_eq!(told.text(), "full.bit: 54908 bytes for the XC3S50\n");
    assert_eq!(told.err, "");
    assert_eq!(scratch.read("status"), b"2\n");
    let judged = "\"$0\" check good.bit | head -1";
    let told = Told::of(scratch.shell(judged));
    assert_eq!(told.text(), "PASS good.bit: XC3S50, no range given\n");
    assert_eq!(told.err, "");
}

#[test]
fn a_full_disk_is_told() {
    let scratch = scratch("disk");
    for line in [
        "parts",
        "parts --json",
        "frame XC3S50 0",
        "numbers",
        "--version",
        "check --help",
        "check good.bit",
        "check --json good.bit",
        "explain good.bit",
        "layout good.layout",
        "load good.bit -o -",
        "build --part 0 --frames 0:368 good.layout -o -",
    ] {
        let mut command = scratch.command(line.split(' '));
        let full = File::options().write(true).open("/dev/full");
        command.stdout(full.expect("/dev/full can be opened"));
        Told::of(command).assert_told(2, "standard output: No space left on device");
    }
    let told = scratch.run(&format!("{BUILD} good.layout -o /dev/full"));
    told.assert_told(2, "/dev/full: No space left on device");
    let told = scratch.run("load -q good.bit -o /dev/full");
    told.assert_told(2, "/dev/full: No space left on device");
}

#[test]
fn closed_standard_files() {
    let scratch = scratch("closed");
    let told = Told::of(scratch.shell("exec \"$0\" check - <&-"));
    assert_eq!((told.status, told.err.as_str()), (1, ""));
    assert!(told.text().starts_with("FAIL standard input"), "{told:?}");
    let told = Told::of(scratch.shell("exec \"$0\" layout - <&-"));
    told_of_layout(&told);
    for (line, status) in [
        ("check good.bit >&-", 0),
        ("check good.layout >&-", 1),
        ("check missing 2>&-", 2),
        ("check missing >&- 2>&-", 2),
    ] {
        // The status of the answer, which is all that is left to tell.
        let told = Told::of(scratch.shell(&format!("exec \"$0\" {line}")));
        let answer = (told.status, told.out.len(), told.err.as_str());
        assert_eq!(answer, (status, 0, ""), "{line}");
    }
}

fn told_of_layout(told: &Told) {
    let words = "seamwillow: standard input: offset 0: bytes missing from the layout (42)\n";
    assert!(told.status == 1 && told.err.starts_with(words), "{told:?}");
}

/// 300 MB, of which a memory of a part is the smallest part.
const LONG: u64 = 300_000_000;
/// Kilobytes of address space: more than the command needs, and less than two such files.
const LIMIT: u64 = 400_000;

#[test]
fn long_inputs_are_told() {
    let scratch = scratch("long");
    let file = File::create(scratch.path("long.bit")).expect("a file can be made");
    file.set_len(LONG).expect("a file can have a hole");
    for command in [
        "check",
        "check --part 0 --frames 0:1",
        "explain",
        "map",
        "load --part 0 -o made.img",
    ] {
        for input in ["long.bit", "- <long.bit", "- </dev/zero"] {
            let line = format!("ulimit -v {LIMIT}; exec \"$0\" {command} {input}");
            let told = Told::of(scratch.shell(&line));
            told.assert_told(2, "longer than 16777216 bytes");
        }
        let line = format!("cat long.bit | {{ ulimit -v {LIMIT}; exec \"$0\" {command} -; }}");
        Told::of(scratch.shell(&line)).assert_told(2, "longer than 16777216 bytes");
    }
    assert!(!scratch.names().contains(&"made.img".to_string()));
}

/// A layout can be longer than any memory; what is no layout is refused all the same.
#[test]
fn long_layouts_are_told() {
    let scratch = scratch("long-layout");
    let file = File::create(scratch.path("long.layout")).expect("a file can be made");
    file.set_len(LONG).expect("a file can have a hole");
    for command in ["layout".to_string(), format!("{BUILD} -o made.bit")] {
        for input in ["long.layout", "- <long.layout", "- </dev/zero"] {
            let line = format!("ulimit -v {LIMIT}; exec \"$0\" {command} {input}");
            let told = Told::of(scratch.shell(&line));
            assert!(told.status != 0 && !told.err.is_empty(), "{line}: {told:?}");
        }
    }
    assert!(!scratch.names().contains(&"made.bit".to_string()));
}

/// A stream can be longer than what the other commands read, which is said.
#[test]
fn a_long_stream_is_built() {
    let scratch = scratch("long-stream");
    let targets: Vec<u32> = (0..368).collect();
    scratch.write(
        "long.layout",
        &layout(0, &vec![multi_frame_write(0, &targets); 2500]),
    );
    let told = scratch.run("build --part 0 --frames 0:368 long.layout -o long.bit");
    let length = 4 * (12 + 2500 * (7 + 37 + 5 * 368));
    let more = "; longer than the 16777216 bytes that the other commands read";
    let words = format!("long.bit: {length} bytes for the XC3S50, frames 0 to 367{more}\n");
    assert_eq!(
        (told.status, told.text(), told.err.as_str()),
        (0, words, "")
    );
    assert_eq!(scratch.read("long.bit").len(), length);
    let told = scratch.run("check long.bit");
    let words = "seamwillow: long.bit: longer than 16777216 bytes, and no more are read\n";
    assert_eq!((told.status, told.err.as_str()), (2, words));
}

/// Names by which a terminal is reached, and how it is told of.
const TERMINALS: [(&str, &str); 7] = [
    ("-", "standard output"),
    ("/dev/stdout", "standard output"),
    ("/proc/self/fd/1", "standard output"),
    ("/dev/stderr", "standard output"),
    ("/dev/tty", "/dev/tty"),
    ("/dev/tty | cat", "/dev/tty"),
    ("/dev/stderr | cat", "/dev/stderr"),
];

#[test]
fn no_binary_to_a_terminal() {
    let scratch = scratch("binary");
    let words = "a terminal takes no binary: name a file or use a pipe";
    for (target, name) in TERMINALS {
        let refused = |line: String| {
            if let Some((status, text)) = scratch.on_terminal(&line, &[]) {
                assert_eq!(text, format!("seamwillow: {name}: {words}\n"), "{line}");
                // A pipe has the status of its last command.
                assert!(status == 2 || line.ends_with("cat"), "{line}: {status}");
            }
        };
        refused(format!("{BUILD} good.layout -o {target}"));
        refused(format!("load good.bit -o {target}"));
    }
    // A picture is text, which a terminal takes.
    if let Some((status, text)) = scratch.on_terminal("map good.bit --svg /dev/tty", &[]) {
        assert!(status == 0 && text.contains("</svg>"), "{status}: {text}");
    }
}

#[test]
fn colour_only_on_a_terminal() {
    let scratch = scratch("colour");
    scratch.write("bad.bit", &stopped(8));
    let escape = '\u{1b}';
    for (file, status) in [("good.bit", 0), ("bad.bit", 1)] {
        let line = format!("check {file}");
        let plain = scratch.run(&line);
        assert_eq!(plain.status, status);
        assert!(!plain.text().contains(escape), "{plain:?}");
        let Some((told, text)) = scratch.on_terminal(&line, &[]) else {
            return;
        };
        assert!(told == status && text.contains(escape), "{text}");
        let mut bare = text.clone();
        for code in ["\u{1b}[1;32m", "\u{1b}[1;31m", "\u{1b}[0m"] {
            bare = bare.replace(code, "");
        }
        assert_eq!(bare, plain.text(), "the same words");
        let forbidden = scratch.on_terminal(&line, &[("NO_COLOR", "1")]);
        assert_eq!(forbidden, Some((status, plain.text())));
        // An empty NO_COLOR forbids nothing (no-color.org).
        let empty = scratch.on_terminal(&line, &[("NO_COLOR", "")]);
        assert_eq!(empty, Some((status, text)));
    }
    let (_, json) = scratch
        .on_terminal("check --json good.bit", &[])
        .expect("as above");
    Value::of(&json);
}
