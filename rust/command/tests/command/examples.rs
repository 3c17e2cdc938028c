//! `examples/`: the stored files are made again and compared, and have the verdicts that they are kept for.

use crate::common::Scratch;
use seamwillow_tests::harness::tools::{ran, root, run};
use std::fs;
use std::path::{Path, PathBuf};
use std::process::Command;

/// The XC3S50, its frames and the bytes of one.
const DEVICE: u32 = 0;
const FRAMES: u32 = 368;
const FRAME_BYTES: usize = 148;

/// The pupil's seat, and where it begins.
const SEAT: &str = "colne";
const SEAT_FIRST: u32 = 62;

/// A layout's number: groups of seven bits, low group first, the top bit set on all but the last.
fn number(value: u32) -> Vec<u8> {
    match value >> 7 {
        0 => vec![value as u8],
        rest => [vec![value as u8 | 0x80], number(rest)].concat(),
    }
}

/// A frame that says one word of four letters all along.
fn frame(word: &[u8; 4]) -> Vec<u8> {
    word.repeat(FRAME_BYTES / word.len())
}

/// A step of kind 1: frames from a first one on.
fn frame_write(first: u32, frames: &[Vec<u8>]) -> Vec<u8> {
    let count = number(frames.len() as u32);
    [number(1), number(first), count, frames.concat()].concat()
}

/// A step of kind 2: one frame to many places.
fn multi_frame_write(frame: Vec<u8>, targets: &[u32]) -> Vec<u8> {
    let count = number(targets.len() as u32);
    let targets: Vec<u8> = targets.iter().flat_map(|&target| number(target)).collect();
    [number(2), count, frame, targets].concat()
}

fn layout(steps: &[Vec<u8>]) -> Vec<u8> {
    let count = number(steps.len() as u32);
    [number(1), number(DEVICE), count, steps.concat()].concat()
}

/// Two lines and a loop side by side, and four signals.
fn pupil() -> Vec<u8> {
    let tracks = [frame(b"UP  "), frame(b"DOWN"), frame(b"LOOP")];
    let signals = [4, 7, 10, 13].map(|place| SEAT_FIRST + place);
    layout(&[
        frame_write(SEAT_FIRST, &tracks),
        multi_frame_write(frame(b"SIGN"), &signals),
    ])
}

/// The accident: a blank frame to every place.
fn blank() -> Vec<u8> {
    let everywhere: Vec<u32> = (0..FRAMES).collect();
    layout(&[multi_frame_write(frame(&[0; 4]), &everywhere)])
}

/// The layouts by their names.
fn layouts() -> [(&'static str, Vec<u8>); 2] {
    [("pupil.layout", pupil()), ("blank.layout", blank())]
}

fn stored(name: &str) -> PathBuf {
    root().join("examples").join(name)
}

fn read(file: &Path) -> Vec<u8> {
    fs::read(file).unwrap_or_else(|error| panic!("{}: {error}", file.display()))
}

fn seamwillow() -> Command {
    let mut command = Command::new(env!("CARGO_BIN_EXE_seamwillow"));
    command.current_dir(root());
    command
}

#[test]
fn the_stored_layouts_are_the_generators() {
    for (name, bytes) in layouts() {
        assert_eq!(read(&stored(name)), bytes, "{name}");
    }
}

#[test]
#[ignore = "writes the layouts of examples/ anew"]
fn write_the_layouts() {
    for (name, bytes) in layouts() {
        fs::write(stored(name), bytes).unwrap_or_else(|error| panic!("{name}: {error}"));
    }
}

#[test]
fn the_stored_streams_are_the_layouts() {
    let scratch = Scratch::new("streams");
    let seat = ["--desk", "examples/desk.txt", "--seat", SEAT];
    let whole = ["--part", "XC3S50", "--frames", "0:368"];
    for (name, place) in [("pupil", seat), ("blank", whole)] {
        let stream = scratch.path(format!("{name}.bit"));
        let layout = format!("examples/{name}.layout");
        run(seamwillow()
            .arg("build")
            .args(place)
            .arg(layout)
            .arg("-o")
            .arg(&stream));
        assert_eq!(
            read(&stream),
            read(&stored(&format!("{name}.bit"))),
            "{name}"
        );
    }
}

/// What `check` says of an example for the pupil's seat, and its exit status.
fn verdict(stream: &str) -> (String, Option<i32>) {
    let place = ["--desk", "examples/desk.txt", "--seat", SEAT];
    let output = ran(seamwillow().arg("check").args(place).arg(stream));
    let text = String::from_utf8_lossy(&output.stdout).into_owned();
    (text, output.status.code())
}

#[test]
fn the_pupils_stream_passes_and_the_accident_fails() {
    let (text, status) = verdict("examples/pupil.bit");
    assert!(
        text.starts_with("PASS ") && status == Some(0),
        "{status:?}\n{text}"
    );
    let (text, status) = verdict("examples/blank.bit");
    assert!(
        text.starts_with("FAIL ") && status == Some(1),
        "{status:?}\n{text}"
    );
}

#[test]
fn the_desk_has_twelve_seats_of_one_clb_column_each() {
    let desk = String::from_utf8(read(&stored("desk.txt"))).expect("a desk is text");
    let seats = desk.lines().filter_map(|line| line.strip_prefix("seat "));
    let seats: Vec<&str> = seats
        .filter_map(|line| line.split_whitespace().nth(1))
        .collect();
    let columns: Vec<String> = (0..12)
        .map(|column| format!("{}:19", 24 + 19 * column))
        .collect();
    assert_eq!(seats, columns);
    for (first, name) in [(24, "CLB"), (251, "CLB"), (23, "IOI_L"), (252, "IOI_R")] {
        let text = run(seamwillow().args(["frame", "XC3S50", &first.to_string()]));
        assert!(text.ends_with(&format!(", {name}\n")), "{text}");
    }
}
