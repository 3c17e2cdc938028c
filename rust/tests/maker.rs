//! Streams in the shape that the maker's note (document 001) prints, on both loaders.

use seamwillow_tests::generate::guided;
use seamwillow_tests::generate::random::{self, Random};
use seamwillow_tests::harness::sides::{compare, INDEPENDENT, PROVED};
use seamwillow_tests::independent::names::{field, flag, phase, register};
use seamwillow_tests::independent::reference::{Lookups, PARTS};
use seamwillow_tests::independent::stream;

/// 001's Table 7, "Total # of Bits", at the device numbers.
const TOTAL_BITS: [usize; 8] = [
    439_264, 1_047_616, 1_699_136, 3_223_488, 5_214_784, 7_673_024, 11_316_864, 13_271_936,
];

/// 001's Figure 17, an XC3S400's mask file, up to the masking data.
const FIGURE_17: [&str; 9] = [
    "0009 0FF0 0FF0 0FF0 0FF0 0000 0161 0008 746F",
    "702E 6E63 6400 6200 0B33 7334 3030 6674 3235",
    "3600 6300 0B32 3030 342F 3031 2F30 3600 6400",
    "0931 313A 3330 3A35 3800 6500 033D A8FF FFFF",
    "FFAA 9955 6630 0080 0100 0000 0730 0160 0100",
    "0000 4430 0120 0100 003F E530 01C0 0101 41C0",
    "9330 00C0 0100 0000 0030 0080 0100 0000 0930",
    "0020 0100 0000 0030 0080 0100 0000 0130 0040",
    "0050 00CF 00",
];
const XC3S400: u32 = 2;
/// Where the stream's length stands, behind its letter e.
const LENGTH_FIELD: usize = 65;

const DAMAGED_STREAMS: u64 = 20_000;

fn figure_17() -> Vec<u8> {
    let digits: Vec<u32> = FIGURE_17
        .iter()
        .flat_map(|line| line.chars())
        .filter_map(|digit| digit.to_digit(16))
        .collect();
    let bytes = digits.chunks_exact(2).map(|pair| pair[0] * 16 + pair[1]);
    bytes.map(|byte| byte as u8).collect()
}

fn some_words(random: &mut Random, count: u32) -> Vec<u32> {
    (0..count).map(|_| random.next_u32()).collect()
}

#[test]
fn full_configurations() {
    let mut random = Random::new(random::seed(11));
    for (device, part) in (0..).zip(&PARTS) {
        let frames = some_words(&mut random, part.frame_words() * part.frame_count());
        let stream = stream::full_configuration(device, &frames);
        assert_eq!(
            8 * stream.len(),
            TOTAL_BITS[device as usize],
            "{}",
            part.name
        );
        let end = compare(&mut random, &PROVED.powered(device), &stream, part.name);
        let answer = (end.code, end.taken);
        assert_eq!(answer, (0, stream.len() as u64), "{}", part.name);
        let memory: Vec<u8> = frames.iter().flat_map(|word| word.to_be_bytes()).collect();
        assert!(end.state.memory == memory, "{}", part.name);
        // Hunting, past the last frame, started and not held.
        let phase_and_frame = (end.state.word(field::PHASE), end.state.word(field::CURRENT));
        assert_eq!(phase_and_frame, (phase::HUNTING, u32::MAX), "{}", part.name);
        assert_eq!(
            end.state.word(field::FLAGS) & (flag::STARTED | flag::GHIGH),
            flag::STARTED
        );
    }
}

#[test]
fn the_makers_sample_file() {
    let file = figure_17();
    assert_eq!(file[LENGTH_FIELD - 1], b'e');
    let length = u32::from_be_bytes(*file[LENGTH_FIELD..].first_chunk().expect("four bytes"));
    assert_eq!(length, 0x0003_3DA8);
    assert_eq!(8 * length as usize, TOTAL_BITS[XC3S400 as usize]);

    let mut random = Random::new(random::seed(12));
    for side in [INDEPENDENT, PROVED] {
        let start = side.powered(XC3S400);
        let end = compare(&mut random, &start, &file, "Figure 17");
        assert_eq!((end.code, end.taken), (0, file.len() as u64));
        // Data to FDRI, every frame's words and the pad frame's still to come.
        let words: Vec<u32> = (1..7).map(|index| end.state.word(index)).collect();
        assert_eq!(words, [phase::DATA, register::FDRI, 52_992, 0, 0, 0]);
        assert!(end.state.memory.iter().all(|&byte| byte == 0));
    }
}

/// A frame to several places, rising or not, with the frame and the places.
fn some_multiple(
    random: &mut Random,
    lookups: &Lookups,
    device: u32,
) -> (Vec<u8>, Vec<u8>, Vec<u32>) {
    let part = &PARTS[device as usize];
    let frame = some_words(random, part.frame_words());
    let count = 1 + random.below(12);
    let targets: Vec<u32> = (0..count)
        .map(|_| random.below(part.frame_count()))
        .collect();
    let stream = stream::multiple_frame_write(lookups, device, &frame, &targets);
    let bytes = frame.iter().flat_map(|word| word.to_be_bytes()).collect();
    (stream, bytes, targets)
}

#[test]
fn multiple_frame_writes() {
    let mut random = Random::new(random::seed(13));
    let lookups = Lookups::new();
    for device in (0..8).cycle().take(80) {
        let (stream, frame, targets) = some_multiple(&mut random, &lookups, device);
        let mut start = PROVED.powered(device);
        start.memory = random.bytes(start.memory.len());
        let what = format!("device {device}, targets {targets:?}");
        let end = compare(&mut random, &start, &stream, &what);
        assert_eq!((end.code, end.taken), (0, stream.len() as u64), "{what}");
        for number in 0..PARTS[device as usize].frame_count() {
            let wanted = match targets.contains(&number) {
                true => &frame,
                false => start.frame(number),
            };
            assert!(end.state.frame(number) == wanted, "{what}, frame {number}");
        }
        assert_eq!(
            Some(&end.state.word(field::CURRENT)),
            targets.last(),
            "{what}"
        );
    }
}

#[test]
fn damaged_multiple_frame_writes() {
    let seed = random::seed(14);
    let lookups = Lookups::new();
    let start = PROVED.powered(0);
    let mut stopped = 0;
    for case in 0..DAMAGED_STREAMS {
        let mut random = Random::of_case(seed, case);
        let (mut stream, _, _) = some_multiple(&mut random, &lookups, 0);
        guided::spoil(&mut random, &mut stream);
        let what = format!("seed {seed}, case {case}");
        let end = compare(&mut random, &start, &stream, &what);
        stopped += u64::from(end.code != 0);
    }
    assert!(
        stopped > DAMAGED_STREAMS / 2,
        "only {stopped} streams stopped"
    );
}
