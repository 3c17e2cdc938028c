//! Words that are no text or hold control characters, as names, options and lines of a desk file.

use super::{scratch, BUILD};
use crate::common::streams::partial;
use crate::common::{Scratch, Told};
use seamwillow_tests::harness::json::Value;
use std::ffi::OsStr;
use std::os::unix::ffi::OsStrExt;

#[test]
fn names_that_are_no_text() {
    let scratch = scratch("names");
    let strange = OsStr::from_bytes(b"\xFF\"\\\n\t.bit");
    scratch.write(strange, &partial(0));
    let arguments = [OsStr::new("check"), OsStr::new("--json"), strange];
    let told = Told::of(scratch.command(arguments));
    assert_eq!((told.status, told.err.as_str()), (0, ""));
    let verdict = Value::of(&told.text()).list()[0].clone();
    assert_eq!(verdict.get("file").text(), "\u{FFFD}\"\\\n\t.bit");
    let target = OsStr::from_bytes(b"\xFE.img");
    let arguments = [OsStr::new("load"), strange, OsStr::new("-o"), target];
    let told = Told::of(scratch.command(arguments));
    assert_eq!((told.status, told.err.as_str()), (0, ""));
    assert_eq!(scratch.read(target).len(), 54_464);
    let arguments = [OsStr::new("check"), OsStr::from_bytes(b"\xFD")];
    Told::of(scratch.command(arguments)).assert_told(2, "\u{FFFD}: No such file");
    for option in ["--part", "--seat", "--frames"] {
        let arguments = [OsStr::new("check"), OsStr::new(option), strange];
        let arguments = arguments.into_iter().chain([OsStr::new("good.bit")]);
        Told::of(scratch.command(arguments)).assert_told(2, option);
    }
    for argument in [strange, OsStr::new(""), OsStr::new("-")] {
        let told = Told::of(scratch.command([argument]));
        assert_eq!((told.status, told.out.len()), (2, 0), "{told:?}");
    }
}

/// An option is one whatever bytes stand in it, and its value is taken as it is.
#[test]
fn options_that_are_no_text() {
    let scratch = scratch("options");
    let run = |option: &[u8]| {
        let words = [b"load".as_slice(), b"good.bit", option];
        Told::of(scratch.command(words.map(OsStr::from_bytes)))
    };
    let told = run(b"--output=o\xFF=.img");
    assert_eq!((told.status, told.err.as_str()), (0, ""));
    let target = OsStr::from_bytes(b"o\xFF=.img");
    assert_eq!(scratch.read(target).len(), 54_464);
    run(b"--part=\xFF").assert_told(2, "-o IMAGE is missing");
    run(b"--colour\xFF=1").assert_told(2, "unknown option --colour\u{FFFD}; see");
    run(b"-\xFF").assert_told(2, "unknown option -\u{FFFD}; see");
}

/// Arguments that make no sense, or files that cannot be had, and are told again.
const TOLD_AGAIN: [&str; 17] = [
    "WORD",
    "help WORD",
    "help check WORD",
    "check --WORD",
    "check -WORD",
    "check --part WORD good.bit",
    "check --frames WORD good.bit",
    "check --desk good.desk --seat WORD good.bit",
    "check --desk WORD good.bit",
    "check WORD",
    "explain good.bit WORD",
    "frame WORD 1",
    "frame XC3S50 WORD",
    "numbers WORD",
    "parts WORD",
    "map good.bit --svg WORD --html WORD",
    "load good.bit -o nowhere/WORD",
];

/// Words with what moves a terminal's cursor or turns the reading direction.
const CONTROL: [&str; 3] = ["\u{1b}[31m", "a\nb\rc", "a\u{202E}b\u{9b}31m"];

#[test]
fn control_characters_in_arguments_are_not_told() {
    let scratch = scratch("control");
    scratch.write("good.desk", b"part XC3S50\nseat a\x1B[31m 3:2\n");
    for word in CONTROL {
        told_again_plainly(&scratch, word);
        told_plainly(&scratch, &format!("{BUILD} good.layout -o WORD"), word, 0);
        let seat = "check --desk good.desk --seat left good.bit";
        told_plainly(&scratch, seat, word, 2);
        // What is refused keeps its other lines.
        scratch.write(word, &[1, 0, 9]);
        let refused = format!("{BUILD} WORD -o made.bit");
        let told = told_plainly(&scratch, &refused, word, 1);
        assert_eq!(told.err.lines().count(), 3, "{told:?}");
    }
}

fn told_again_plainly(scratch: &Scratch, word: &str) {
    for line in TOLD_AGAIN {
        told_plainly(scratch, line, word, 2);
    }
}

/// Each kind of fault that is told with a word of the desk file.
const WRONG_DESKS: [&str; 7] = [
    "\u{1b}[31m left 3:2\n",
    "part \u{1b}[31m\n",
    "part XC3S50\nseat left \u{1b}[31m\n",
    "part XC3S50\nseat \u{1b}[31m\n",
    "part XC3S50\nseat \u{1b}[31m 1:1 2:1\n",
    "part XC3S50\nseat \u{1b}[31m 368:1\n",
    "part XC3S50\nseat \u{1b}[31m 1:1\nseat \u{1b}[31m 2:1\n",
];

#[test]
fn control_characters_in_desks_are_not_told() {
    let scratch = scratch("control-desk");
    for desk in WRONG_DESKS {
        scratch.write("wrong.desk", desk.as_bytes());
        told_plainly(&scratch, "check --desk wrong.desk good.bit", "", 2);
    }
}

/// A run, with a word in its place, that tells whole lines of letters that a terminal shows.
fn told_plainly(scratch: &Scratch, line: &str, word: &str, status: i32) -> Told {
    let words = line.split(' ').map(|it| it.replace("WORD", word));
    let told = Told::of(scratch.command(words));
    assert_eq!(told.status, status, "{line}: {told:?}");
    let text = told.text() + &told.err;
    let is_shown = |letter: char| letter == '\n' || !(letter.is_control() || letter == '\u{202E}');
    assert!(text.chars().all(is_shown), "{line}: {told:?}");
    assert!(text.contains('\u{FFFD}'), "{line}: {told:?}");
    // A refused layout is told in three lines.
    let most = if status == 1 { 3 } else { 1 };
    assert!(text.lines().count() <= most, "{line}: {told:?}");
    told
}

#[test]
fn desks_with_bytes_that_are_no_text() {
    let scratch = scratch("bytes");
    let run = |desk: &[u8]| {
        scratch.write("bytes.desk", desk);
        scratch.run("check -q --desk bytes.desk --seat left good.bit")
    };
    let told = run(b"# B\xFCro\npart XC3S50 # \xFF#\nseat left 3:2\n#\xC3");
    assert_eq!((told.status, told.err.as_str()), (0, ""));
    for (desk, line) in [
        (b"\xFF".as_slice(), 1),
        (b"# B\xFCro\npart XC3S50\nseat l\xFC 3:2\n", 3),
        (b"\xFFpart XC3S50 # the part\nseat left 3:2\n", 1),
        (b"part XC3S50\r\nseat left 3:2\r\n\xFF", 3),
    ] {
        run(desk).assert_told(2, &format!("bytes.desk: line {line}: not text"));
    }
}
