//! The built program `load50` on the stored runs; `runs/README.md` tells how each was worked out.

use seamwillow_tests::harness::programs::{finished, text, FOLDER, LOAD50};
use seamwillow_tests::harness::sides::End;
use seamwillow_tests::harness::worked::{
    at_address, frames, FRAMES, FRAME_367, FRAME_WORDS, SIDES,
};
use seamwillow_tests::independent::names::{command, field, flag};
use seamwillow_tests::independent::stream::{full_configuration, Stream};
use std::fs::{self, File};
use std::path::{Path, PathBuf};
use std::process::Output;

type Build = fn() -> Vec<u8>;

/// The stored runs with the builders of their streams.
const RUNS: [(&str, Build); 7] = [
    ("empty", Vec::new),
    ("example", example),
    ("full", full),
    ("behind_bit_header", behind_bit_header),
    ("before_auto_crc", before_auto_crc),
    ("stop8", stop8),
    ("stop9", stop9),
];

/// One byte at a time is for streams up to this length.
const SHORT: usize = 1000;

/// A full configuration's words before its frame data: 001's Table 9 and the two headers to FDRI.
const OPENING_WORDS: usize = 20;

/// The phases at their numbers in a record's image.
const PHASES: [&str; 5] = ["hunting", "header", "data", "crc", "stopped"];

fn example() -> Vec<u8> {
    let mut stream = Stream::synced();
    stream.command(command::RCRC);
    stream.into_bytes()
}

fn full() -> Vec<u8> {
    let words = 1..=FRAMES * FRAME_WORDS as u32;
    let memory: Vec<u32> = words.map(|place| place.wrapping_mul(0x9E37_79B9)).collect();
    full_configuration(0, &memory)
}

/// A configuration in the shape of a full one, of the first three frames.
fn three_frames() -> Vec<u8> {
    full_configuration(0, &frames(1, 3))
}

/// The header that stands before the stream in the maker's files, as in 001's Figure 17.
fn bit_header(stream_bytes: usize) -> Vec<u8> {
    let mut header = b"\x00\x09\x0F\xF0\x0F\xF0\x0F\xF0\x0F\xF0\x00\x00\x01".to_vec();
    for (letter, field) in [
        (b'a', "desk.ncd"),
        (b'b', "3s50tq144"),
        (b'c', "2004/01/06"),
        (b'd', "11:30:58"),
    ] {
        header.extend([letter, 0, field.len() as u8 + 1]);
        header.extend(field.bytes().chain([0]));
    }
    header.push(b'e');
    header.extend((stream_bytes as u32).to_be_bytes());
    header
}

fn behind_bit_header() -> Vec<u8> {
    let stream = full();
    let mut file = bit_header(stream.len());
    file.extend(&stream[..4 * OPENING_WORDS]);
    file
}

fn before_auto_crc() -> Vec<u8> {
    let mut stream = three_frames();
    stream.truncate(4 * (OPENING_WORDS + 4 * FRAME_WORDS));
    stream
}

fn stop8() -> Vec<u8> {
    let mut stream = three_frames();
    let word = OPENING_WORDS + FRAME_WORDS + 5;
    stream[4 * word + 3] ^= 1;
    stream
}

fn stop9() -> Vec<u8> {
    let mut stream = at_address(FRAME_367);
    stream.frames(&frames(1, 3));
    stream.into_bytes()
}

fn path(name: &str, ending: &str) -> PathBuf {
    let runs = Path::new(FOLDER).join("tests/runs");
    runs.join(format!("{name}.{ending}"))
}

fn stored(name: &str, ending: &str) -> Vec<u8> {
    let path = path(name, ending);
    fs::read(&path).unwrap_or_else(|error| panic!("{}: {error}", path.display()))
}

fn assert_prints(output: &Output, name: &str, how: &str) {
    let expected = text(&stored(name, "out"));
    assert_eq!(text(&output.stdout), expected, "{name}, {how}");
    assert_eq!(text(&output.stderr), "", "{name}, {how}");
    assert!(output.status.success(), "{name}, {how}: {}", output.status);
}

/// The four lines for a load.
fn verdict(end: &End) -> String {
    let phase = PHASES[end.state.word(field::PHASE) as usize];
    let started = match end.state.word(field::FLAGS) & flag::STARTED {
        0 => "no",
        _ => "yes",
    };
    let (stop, taken) = (end.code, end.taken);
    format!("stop {stop}\ntaken {taken}\nphase {phase}\nstarted {started}\n")
}

#[test]
fn stored_runs() {
    for (name, _) in RUNS {
        let input = File::open(path(name, "stream")).expect("the stream is stored");
        assert_prints(
            &finished(LOAD50.start(&[], input.into())),
            name,
            "from the file",
        );
    }
}

#[test]
fn input_in_pieces() {
    for (name, _) in RUNS {
        let stream = stored(name, "stream");
        let lengths: &[usize] = match stream.len() {
            ..=SHORT => &[1, 7],
            _ => &[7],
        };
        for &length in lengths {
            let how = format!("pieces of {length}");
            let on_pipe = LOAD50.run_on_pipe(&[], &stream, length);
            assert_prints(&on_pipe, name, &format!("{how} on a pipe"));
            let on_messages = LOAD50.run_on_messages(&[], &stream, length);
            assert_prints(&on_messages, name, &format!("{how}, each read alone"));
        }
    }
}

#[test]
fn streams_are_as_built() {
    let scratch = Path::new(env!("CARGO_TARGET_TMPDIR"));
    let mut others = Vec::new();
    for (name, build) in RUNS {
        let built = build();
        if stored(name, "stream") != built {
            let file = scratch.join(format!("{name}.stream"));
            fs::write(file, built).expect("the scratch folder can be written");
            others.push(name);
        }
    }
    let scratch = scratch.display();
    assert!(
        others.is_empty(),
        "{others:?} are built otherwise: see {scratch}"
    );
}

#[test]
fn both_loaders_agree() {
    for side in SIDES {
        for (name, _) in RUNS {
            let end = side.load(&side.powered(0), &stored(name, "stream"));
            let expected = text(&stored(name, "out"));
            assert_eq!(verdict(&end), expected, "{name}, {}", side.name);
        }
    }
}

#[test]
fn a_failed_read_is_told() {
    // A folder can be opened but not read.
    let folder = File::open(FOLDER).expect("the folder can be opened");
    let output = finished(LOAD50.start(&[], folder.into()));
    assert_eq!(text(&output.stdout), "");
    let told = text(&output.stderr);
    let line = told.strip_suffix('\n').unwrap_or_default();
    assert!(!line.is_empty() && !line.contains('\n'), "{told:?}");
}
