//! The built command on stored runs: standard output, standard error, exit status and the files
//! that came to be are what `tests/runs/NAME.out` says; the README there tells how to store them
//! anew.

mod cases;
mod inputs;

use crate::common::{Scratch, Told};
use cases::Case;
use seamwillow_tests::harness::json::Value;
use std::collections::BTreeSet;
use std::env;
use std::fs::{self, File};
use std::path::{Path, PathBuf};

const VARIABLE: &str = "SEAMWILLOW_BLESS";
/// Output that is not text is shown up to this length.
const SHOWN_BYTES: usize = 512;

fn folder() -> PathBuf {
    Path::new(env!("CARGO_MANIFEST_DIR")).join("tests/runs")
}

/// A run as a shell would do it: words apart by spaces, `< FILE` at the end for standard input.
fn run(scratch: &Scratch, line: &str) -> Told {
    let (words, input) = match line.split_once(" < ") {
        Some((words, input)) => (words, Some(input)),
        None => (line, None),
    };
    let words = words.split(' ').filter(|word| !word.is_empty());
    // '' is an empty word.
    let mut command = scratch.command(words.map(|word| if word == "''" { "" } else { word }));
    if let Some(input) = input {
        let input = File::open(scratch.path(input)).expect("the input is built");
        command.stdin(input);
    }
    Told::of(command)
}

/// Bytes as text where they are text, or else in hexadecimal digits or by their count.
fn shown(bytes: &[u8]) -> String {
    let is_text = |text: &&str| !text.contains('\0');
    if let Some(text) = std::str::from_utf8(bytes).ok().filter(is_text) {
        return text.to_string();
    }
    let line = |line: &[u8]| -> String { line.iter().map(|it| format!("{it:02X} ")).collect() };
    let lines = bytes
        .chunks(16)
        .map(|it| line(it).trim_end().to_string() + "\n");
    let bytes = bytes.len();
    match bytes {
        ..=SHOWN_BYTES => format!("{bytes} bytes:\n{}", lines.collect::<String>()),
        _ => format!("{bytes} bytes\n"),
    }
}

/// FNV-1a of 64 bits.
fn hash(bytes: &[u8]) -> u64 {
    let taken = |hash: u64, byte: &u8| (hash ^ u64::from(*byte)).wrapping_mul(0x0100_0000_01B3);
    bytes.iter().fold(0xCBF2_9CE4_8422_2325, taken)
}

/// The length of a file; and of a picture a hash, since it is too long to be stored for every run
/// and any change is to show.
fn measured(name: &str, bytes: &[u8]) -> String {
    let is_picture = [".svg", ".html"].iter().any(|it| name.ends_with(it));
    let length = bytes.len();
    match is_picture {
        true => format!("{length} bytes, hash {:016X}", hash(bytes)),
        false => format!("{length} bytes"),
    }
}

/// The text that is stored of a run.
fn told(scratch: &Scratch, line: &str) -> String {
    let before = scratch.names();
    let told = run(scratch, line);
    let mut text = format!("$ seamwillow {line}\n");
    text += &format!("--- standard output\n{}", shown(&told.out));
    text += &format!("--- standard error\n{}", told.err);
    text += &format!("--- exit status {}\n", told.status);
    for name in scratch.names() {
        if !before.contains(&name) {
            let measured = measured(&name, &scratch.read(&name));
            text += &format!("--- written: {name}, {measured}\n");
            fs::remove_file(scratch.path(&name)).expect("what was written can be removed");
        }
    }
    text
}

/// The lines in which two texts differ, from the first such line on.
fn difference(stored: &str, told: &str) -> String {
    let same = stored.lines().zip(told.lines());
    let same = same.take_while(|(stored, told)| stored == told).count();
    let rest = |text: &str, mark: &str| -> String {
        let lines = text.lines().skip(same).take(8);
        lines.map(|line| format!("  {mark} {line}\n")).collect()
    };
    let (stored, told) = (rest(stored, "stored"), rest(told, "  told"));
    format!("  from line {} on\n{stored}{told}", same + 1)
}

fn stored(name: &str) -> String {
    fs::read_to_string(folder().join(format!("{name}.out"))).unwrap_or_default()
}

/// A folder with every input file.
fn with_inputs(name: &str) -> Scratch {
    let scratch = Scratch::new(name);
    for (name, bytes) in inputs::all() {
        scratch.write(name, &bytes);
    }
    scratch
}

/// Whether what is told is to be stored.
fn is_blessed() -> bool {
    env::var_os(VARIABLE).is_some_and(|value| value == "1")
}

#[test]
fn runs_are_as_stored() {
    let scratch = with_inputs("runs");
    let mut others = Vec::new();
    for Case { name, line } in cases::all() {
        let (stored, told) = (stored(&name), told(&scratch, &line));
        if is_blessed() {
            let file = folder().join(format!("{name}.out"));
            fs::write(file, &told).expect("the stored runs can be written");
        } else if stored != told {
            others.push(format!("{name}\n{}", difference(&stored, &told)));
        }
    }
    assert!(
        others.is_empty(),
        "{} runs are not as stored; {VARIABLE}=1 stores them anew\n{}",
        others.len(),
        others.concat()
    );
}

/// Runs whose picture is stored whole, and the picture's kind.
const WHOLE: [(&str, &str); 2] = [("map-svg", "svg"), ("map-html", "html")];

#[test]
fn pictures_are_as_stored() {
    let scratch = with_inputs("whole");
    for (name, kind) in WHOLE {
        let case = cases::all().into_iter().find(|case| case.name == name);
        run(&scratch, &case.expect("the run has a case").line);
        let drawn = String::from_utf8(scratch.read(format!("made.{kind}"))).expect("it is text");
        let file = folder().join(format!("{name}.{kind}"));
        if is_blessed() {
            fs::write(&file, &drawn).expect("the stored pictures can be written");
        }
        let stored = fs::read_to_string(&file).unwrap_or_default();
        assert!(
            stored == drawn,
            "{name}.{kind}; {VARIABLE}=1 stores it anew\n{}",
            difference(&stored, &drawn)
        );
    }
}

#[test]
fn each_stored_run_has_one_case() {
    let mut names = BTreeSet::new();
    for case in cases::all() {
        assert!(names.insert(case.name.clone()), "{} twice", case.name);
    }
    let files = fs::read_dir(folder()).expect("there are stored runs");
    for file in files.flatten() {
        let name = file.file_name().to_string_lossy().into_owned();
        if let Some(name) = name.strip_suffix(".out") {
            assert!(names.contains(name), "{name}.out has no case");
        }
    }
}

/// What the papers' numbers, the parts and the subcommands are: each has its runs.
#[test]
fn every_number_and_subcommand_is_met() {
    let all: String = cases::all().iter().map(|case| stored(&case.name)).collect();
    let stops = (1..=10).map(|number| format!("stop {number} at offset"));
    let explained = (1..=10).map(|number| format!("STOP {number}: "));
    let refused = [23, 32, 33, 34, 35, 37].into_iter().chain(41..=47);
    let refused = refused.map(|number| format!(" ({number})\n"));
    let commands = ["check", "explain", "map", "load", "build", "layout"];
    let tables = ["parts", "frame", "numbers"];
    let commands = commands.into_iter().chain(tables);
    let commands = commands.map(|name| format!("$ seamwillow {name} "));
    for wanted in stops.chain(explained).chain(refused).chain(commands) {
        assert!(all.contains(&wanted), "no run has {wanted:?}");
    }
}

#[test]
fn stored_json_is_json() {
    for Case { name, line } in cases::all() {
        if !line.contains("--json") || line.contains("-q") {
            continue;
        }
        let stored = stored(&name);
        let (_, rest) = stored.split_once("--- standard output\n").expect("a run");
        let (out, _) = rest.split_once("--- standard error\n").expect("a run");
        if !out.is_empty() {
            Value::of(out);
        }
    }
}
