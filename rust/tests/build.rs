//! The built program `build`: its streams are loaded by the independent loader and by `load50`, and
//! its lines on standard error are compared.

use seamwillow_tests::generate::random::Random;
use seamwillow_tests::harness::programs::{finished, text, BUILD, FOLDER, LOAD50};
use seamwillow_tests::harness::sides::INDEPENDENT;
use seamwillow_tests::harness::worked::FRAME_WORDS;
use seamwillow_tests::independent::layout::{apply, number, Desk};
use seamwillow_tests::independent::reference::PARTS;
use std::fs::{File, OpenOptions};
use std::path::Path;
use std::process::{Output, Stdio};

/// The most bytes of a layout and of a stream that the program takes.
const MOST_LAYOUT: usize = 1_700_000;
const MOST_STREAM: usize = 3_400_000;

/// The bytes of a frame of the XC3S50.
const FRAME: usize = 4 * FRAME_WORDS;
/// The XC3S5000, its bytes of a frame, and its frames.
const LARGEST: u32 = 7;
const LARGEST_FRAME: usize = 852;
const LARGEST_FRAMES: u32 = 1945;

fn run(arguments: &[&str], layout: &[u8]) -> Output {
    BUILD.run_on_pipe(arguments, layout, layout.len().max(1))
}

fn desk_of([device, first, count]: [u32; 3]) -> Desk {
    Desk {
        device,
        first,
        count,
    }
}

/// A run for a desk.
fn run_for(desk: Desk, layout: &[u8]) -> Output {
    let numbers = [desk.device, desk.first, desk.count].map(|number| number.to_string());
    run(&numbers.each_ref().map(String::as_str), layout)
}

/// Asserts one line on standard error and nothing on standard output.
fn assert_tells(output: &Output, line: &str, case: &str) {
    assert_eq!(text(&output.stderr), format!("{line}\n"), "{case}");
    assert_eq!(text(&output.stdout), "", "{case}");
    assert!(output.status.success(), "{case}: {}", output.status);
}

/// Asserts that a stream was written, and that it does the layout's steps on a fresh part.
fn assert_builds(desk: Desk, layout: &[u8], length: usize, case: &str) {
    let output = run_for(desk, layout);
    assert_eq!(text(&output.stderr), "", "{case}");
    assert_eq!(output.stdout.len(), length, "{case}");
    assert!(output.status.success(), "{case}: {}", output.status);
    let start = INDEPENDENT.powered(desk.device);
    let mut expected = start.memory.clone();
    let checked = apply(desk, layout, &mut expected).map_err(|refusal| refusal.cause);
    assert_eq!(checked, Ok(length as u64), "{case}");
    let end = INDEPENDENT.load(&start, &output.stdout);
    assert_eq!((end.code, end.taken), (0, length as u64), "{case}");
    assert!(end.state.memory == expected, "{case}: the memory differs");
}

/// A layout of one step for the XC3S50.
fn one_step(step: &[u8]) -> Vec<u8> {
    [&[1, 0, 1], step].concat()
}

fn frame_write(first: u64, count: u64, frames: &[u8]) -> Vec<u8> {
    let numbers = [number::coded(first), number::coded(count)].concat();
    [&[1], &numbers[..], frames].concat()
}

fn multi_frame_write(frame: &[u8], targets: &[u64]) -> Vec<u8> {
    let count = number::coded(targets.len() as u64);
    let targets: Vec<u8> = targets
        .iter()
        .flat_map(|&target| number::coded(target))
        .collect();
    [&[2], &count[..], frame, &targets].concat()
}

fn some_bytes(random: &mut Random, count: usize) -> Vec<u8> {
    (0..count).map(|_| random.next_u32() as u8).collect()
}

/// So many steps of one frame each for the XC3S5000, from frame 0 on and round again.
fn frame_by_frame(steps: u32) -> Vec<u8> {
    let mut random = Random::new(30);
    let mut layout = [vec![1, 7], number::coded(u64::from(steps))].concat();
    for step in 0..steps {
        let frame = some_bytes(&mut random, LARGEST_FRAME);
        layout.extend(frame_write(u64::from(step % LARGEST_FRAMES), 1, &frame));
    }
    layout
}

/// 01's words of the stream of such steps, as bytes.
fn frame_by_frame_bytes(steps: u32) -> usize {
    4 * (12 + steps as usize * (7 + 2 * 213))
}

/// 01's five layouts with their streams' lengths.
fn worked() -> [(Vec<u8>, usize); 5] {
    let frames: Vec<u8> = (0..3 * FRAME).map(|place| place as u8).collect();
    let frame = &frames[..FRAME];
    [
        (vec![1, 0, 0], 48),
        (one_step(&frame_write(0, 1, frame)), 372),
        (one_step(&frame_write(0, 3, &frames)), 668),
        (one_step(&multi_frame_write(frame, &[5])), 244),
        (one_step(&multi_frame_write(frame, &[5, 6, 367])), 284),
    ]
}

/// The stored layout 01 00 00 as an input.
fn no_steps() -> Stdio {
    let layout = Path::new(FOLDER).join("../crates/build/stdin");
    File::open(layout).expect("the layout is stored").into()
}

#[test]
fn worked_lengths() {
    for (layout, length) in worked() {
        assert_builds(Desk::whole(0), &layout, length, &format!("{length} bytes"));
    }
}

#[test]
fn every_part_in_one_step() {
    for (device, part) in PARTS.iter().enumerate() {
        let frames = some_bytes(&mut Random::new(31), part.memory_bytes());
        let count = u64::from(part.frame_count());
        let step = frame_write(0, count, &frames);
        let layout = [&[1, device as u8, 1], &step[..]].concat();
        let length = frames.len() + 4 * (12 + 7 + part.frame_words() as usize);
        assert_builds(Desk::whole(device as u32), &layout, length, part.name);
    }
    assert_eq!(PARTS[7].memory_bytes(), 1_657_140);
}

#[test]
fn every_frame_in_a_step_of_its_own() {
    let layout = frame_by_frame(LARGEST_FRAMES);
    let length = frame_by_frame_bytes(LARGEST_FRAMES);
    assert_eq!((layout.len(), length), (1_664_796, 3_368_788));
    assert_builds(Desk::whole(LARGEST), &layout, length, "frame by frame");
}

#[test]
fn input_in_pieces() {
    for (layout, length) in worked() {
        let whole = run_for(Desk::whole(0), &layout).stdout;
        for piece in [1, 7] {
            let arguments = ["0", "0", "368"];
            let outputs = [
                BUILD.run_on_pipe(&arguments, &layout, piece),
                BUILD.run_on_messages(&arguments, &layout, piece),
            ];
            for output in outputs {
                let case = format!("{length} bytes, pieces of {piece}");
                assert!(output.stdout == whole, "{case}");
                assert_eq!(text(&output.stderr), "", "{case}");
            }
        }
    }
}

#[test]
fn refused_layouts() {
    let frame = [0; FRAME];
    let one = one_step(&frame_write(0, 1, &frame));
    let to_three = |targets| one_step(&multi_frame_write(&frame, targets));
    let cases: [(&[u8], &str); 15] = [
        (b"", "42 at offset 0: bytes missing"),
        (b"\x81\0\0\0", "41 at offset 0: a number in a bad form"),
        (
            b"\x01\0\xFF\xFF\xFF\xFF\x10",
            "41 at offset 2: a number in a bad form",
        ),
        (&one[..153], "42 at offset 153: bytes missing"),
        (b"\x01\0\x01\x03", "43 at offset 3: a step of unknown kind"),
        (b"\x01\0\x01\x01\0\0", "44 at offset 5: a count of 0"),
        (b"\x01\0\x01\x02\0", "44 at offset 4: a count of 0"),
        (
            &to_three(&[5, 6, 6]),
            "45 at offset 155: frame numbers that do not rise",
        ),
        (b"\x01\0\x81\x20", "46 at offset 2: too many steps"),
        (b"\x01\0\0\0", "47 at offset 3: bytes after the last step"),
        (b"\x02\0\0", "32 at offset 0: an edition other than 1"),
        (b"\x01\x01\0", "33 at offset 1: a layout for another device"),
        (
            &one_step(&frame_write(367, 2, &[])),
            "34 at offset 4: a frame outside the part",
        ),
        (
            &to_three(&[5, 6, 368]),
            "34 at offset 155: a frame outside the part",
        ),
        (b"\x01\0\xFF", "42 at offset 2: bytes missing"),
    ];
    for (layout, line) in cases {
        let output = run_for(Desk::whole(0), layout);
        assert_tells(&output, &format!("build: {line}"), line);
    }
}

#[test]
fn refused_desks() {
    let empty: &[u8] = &[1, 0, 0];
    let at_256: &[u8] = &[1, 0, 1, 1, 0x80, 2, 1];
    let range = "37 at offset 0: a range past the part's last frame";
    for (desk, layout, line) in [
        ([8, 0, 0], empty, "21 at offset 0: a device number above 7"),
        ([0, 364, 5], empty, range),
        ([0, 369, 0], empty, range),
        ([0, u32::MAX, u32::MAX], empty, range),
        (
            [0, 0, 256],
            at_256,
            "35 at offset 4: a frame outside the range",
        ),
    ] {
        let output = run_for(desk_of(desk), layout);
        assert_tells(&output, &format!("build: {line}"), &format!("{desk:?}"));
    }
    assert_builds(desk_of([0, 364, 4]), empty, 48, "range 364 count 4");
}

#[test]
fn too_long_a_stream() {
    let steps = (MOST_STREAM / 4 - 12) as u32 / (7 + 2 * 213);
    let fits = run_for(Desk::whole(LARGEST), &frame_by_frame(steps));
    assert_eq!(text(&fits.stderr), "");
    assert_eq!(fits.stdout.len(), frame_by_frame_bytes(steps));
    let output = run_for(Desk::whole(LARGEST), &frame_by_frame(steps + 1));
    let needed = frame_by_frame_bytes(steps + 1);
    let line = format!(
        "build: 36, length needed {needed}: a stream longer than the output of {MOST_STREAM} bytes"
    );
    assert_tells(&output, &line, "a step more");
}

#[test]
fn too_long_an_input() {
    let mut layout = vec![1, 0, 0];
    layout.resize(MOST_LAYOUT, 0);
    let trailing = "build: 47 at offset 3: bytes after the last step";
    assert_tells(
        &run_for(Desk::whole(0), &layout),
        trailing,
        "the longest input",
    );
    let line = format!("build: standard input is longer than {MOST_LAYOUT} bytes");
    for longer in [MOST_LAYOUT + 1, 3 * MOST_LAYOUT] {
        layout.resize(longer, 0);
        let output = run_for(Desk::whole(0), &layout);
        assert_tells(&output, &line, &format!("{longer} bytes"));
    }
}

#[test]
fn wrong_arguments() {
    let layout = [1, 0, 0];
    let wanted = "build: three arguments are wanted, DEVICE FIRST COUNT";
    for arguments in [&[][..], &["0"], &["0", "0"], &["0", "0", "368", "0"]] {
        assert_tells(&run(arguments, &layout), wanted, &format!("{arguments:?}"));
    }
    let long = "0".repeat(5000);
    for malformed in [
        "",
        "-1",
        "+1",
        " 1",
        "1 ",
        "1.0",
        "0x1",
        "x",
        "1\n",
        "/",
        ":",
        "4294967296",
        "9999999999",
        "00000000001",
        &long,
    ] {
        for place in 0..3 {
            let mut arguments = ["0", "0", "368"];
            arguments[place] = malformed;
            let line = format!(
                "build: argument {} of DEVICE FIRST COUNT is not a number under 4294967296 in one to ten decimal digits",
                place + 1
            );
            let case = format!("{malformed:?} at {place}");
            assert_tells(&run(&arguments, &layout), &line, &case);
        }
    }
    let padded = run(&["0000000000", "00", "0000000368"], &layout);
    assert_eq!(padded.stdout.len(), 48);
}

#[test]
fn a_failed_read_is_told() {
    let line = "build: standard input could not be read";
    // Neither can be read.
    let folder = File::open(FOLDER).expect("the folder can be opened");
    let scratch = Path::new(env!("CARGO_TARGET_TMPDIR")).join("write_only");
    let write_only = File::create(scratch).expect("the scratch folder can be written");
    for (input, case) in [(folder, "a folder"), (write_only, "open for writing")] {
        let child = BUILD.start(&["0", "0", "368"], input.into());
        assert_tells(&finished(child), line, case);
    }
}

#[test]
fn a_failed_write_is_told() {
    let full = OpenOptions::new().write(true).open("/dev/full");
    let full = full.expect("Linux has /dev/full");
    let child = BUILD.start_into(&["0", "0", "368"], no_steps(), full.into());
    let line = "build: the stream could not be written";
    assert_tells(&finished(child), line, "a full device");
}

#[test]
fn into_load50() {
    let mut build = BUILD.start(&["0", "0", "368"], no_steps());
    let stream = build.stdout.take().expect("the output is a pipe");
    let load50 = LOAD50.start(&[], Stdio::from(stream));
    let printed = text(&finished(load50).stdout);
    assert_eq!(text(&finished(build).stderr), "");
    assert_eq!(printed, "stop 0\ntaken 48\nphase hunting\nstarted no\n");
    for (layout, length) in worked() {
        let stream = run_for(Desk::whole(0), &layout).stdout;
        let output = LOAD50.run_on_pipe(&[], &stream, length);
        let expected = format!("stop 0\ntaken {length}\nphase hunting\nstarted no\n");
        assert_eq!(text(&output.stdout), expected);
    }
}
