//! The input files of the stored runs, built anew for every test.

use crate::common::streams::{
    begun, behind_bit_header, bits_reversed, frame_write, frames, full, gzip, hex_text, layout,
    multi_frame_write, multiple, partial, starting, stopped, turned, unchecked,
};
use seamwillow_tests::harness::worked::FRAME_3;
use seamwillow_tests::independent::names::{command, register};
use seamwillow_tests::independent::reference::{LOOKUPS, PARTS};
use seamwillow_tests::independent::stream::{multiple_frame_write, Stream, NO_OP};

type Files = Vec<(String, Vec<u8>)>;

/// The XC3S50's good stream has its auto CRC word from here on.
const AUTO_CRC: usize = 4 * (14 + 3 * 37);

pub fn all() -> Files {
    let named = [
        streams(),
        histories(),
        cut(),
        strange(),
        layouts(),
        refused_layouts(),
    ];
    let named = named.into_iter().flatten();
    let mut files: Files = named.map(|(name, it)| (name.to_string(), it)).collect();
    for (device, part) in (0..).zip(&PARTS) {
        files.push((format!("{}.bit", part.name), partial(device)));
        files.push((format!("{}-full.bit", part.name), full(device)));
    }
    for number in 1..=10 {
        files.push((format!("stop{number}.bit"), stopped(number)));
    }
    let desks = DESKS.iter();
    files.extend(desks.map(|(name, text)| (format!("{name}.desk"), text.as_bytes().to_vec())));
    files
}

type Named = Vec<(&'static str, Vec<u8>)>;

fn streams() -> Named {
    let mut no_idcode = Stream::synced();
    no_idcode.write(register::FLR, &[36]).check();
    let mut wrong_idcode = Stream::synced();
    wrong_idcode.write(register::IDCODE, &[0x0140_D094]);
    let good = partial(0);
    let mut bit_flipped = good.clone();
    bit_flipped[200] ^= 1;
    let mut image = vec![0; PARTS[0].memory_bytes()];
    let written = frames(0, 2);
    let written = written.iter().flat_map(|word| word.to_be_bytes());
    image.splice(3 * 148..5 * 148, written);
    vec![
        ("multiple.bit", multiple(0)),
        ("starting.bit", starting()),
        ("unchecked.bit", unchecked()),
        ("no-idcode.bit", no_idcode.into_bytes()),
        ("wrong-idcode.bit", wrong_idcode.into_bytes()),
        ("twice.bit", [good.as_slice(), &multiple(0)].concat()),
        (
            "trailing.bit",
            [good.as_slice(), b"\x20\0\0\0\x20\0\0\0"].concat(),
        ),
        ("odd.bit", odd()),
        ("bit-flipped.bit", bit_flipped),
        ("bit-header.bit", behind_bit_header(&good)),
        ("XC3S50.img", image),
    ]
}

/// Streams whose part is hard to find, and streams that depend on what the part took before.
fn histories() -> Named {
    let mut late_idcode = Stream::synced();
    // Pairs that are no run of equal words.
    late_idcode.words(&[NO_OP, 0].repeat(6000));
    late_idcode.words(&words_of(&partial(0)[8..]));
    let mut mixed_idcode = Stream::synced();
    mixed_idcode
        .write(register::FLR, &[PARTS[0].frame_words() - 1])
        .write(register::IDCODE, &[PARTS[1].idcode]);
    let mut no_far = Stream::ready(0);
    no_far
        .command(command::WCFG)
        .padded_frames(&frames(0, 1), PARTS[0].frame_words())
        .check()
        .command(command::DESYNC);
    let mut no_rcrc = Stream::synced();
    no_rcrc
        .write(register::FLR, &[PARTS[0].frame_words() - 1])
        .write(register::IDCODE, &[PARTS[0].idcode])
        .check()
        .write(register::FAR, &[0])
        .command(command::DESYNC);
    vec![
        ("late-idcode.bit", late_idcode.into_bytes()),
        ("mixed-idcode.bit", mixed_idcode.into_bytes()),
        ("no-far.bit", no_far.into_bytes()),
        ("no-rcrc.bit", no_rcrc.into_bytes()),
        ("far-first.bit", far_first(&[]).into_bytes()),
        ("hidden.bit", hidden(&[1, 3, 367])),
        ("hidden-bytes.bit", hidden(&[3, 4])),
    ]
}

/// A part that has taken a stream has DESYNC in CMD, which acts again at this one's first FAR
/// write: it then waits for sync and does nothing of what follows.
fn far_first(frames: &[u32]) -> Stream {
    let frame_words = PARTS[0].frame_words();
    let mut stream = Stream::synced();
    stream
        .write(register::FAR, &[FRAME_3])
        .command(command::RCRC)
        .write(register::FLR, &[frame_words - 1])
        .write(register::IDCODE, &[PARTS[0].idcode]);
    match frames {
        [] => stream.write(register::COR, &[0]),
        _ => stream
            .command(command::WCFG)
            .padded_frames(frames, frame_words),
    };
    stream.check().command(command::DESYNC);
    stream
}

/// There it meets the stream that stands in the frame data, which stores a frame at the targets.
fn hidden(targets: &[u32]) -> Vec<u8> {
    let inner = multiple_frame_write(&LOOKUPS, 0, &frames(0, 1), targets);
    let mut data = words_of(&inner);
    let frame_words = PARTS[0].frame_words() as usize;
    data.resize(data.len().next_multiple_of(frame_words), 0);
    far_first(&data).into_bytes()
}

fn words_of(bytes: &[u8]) -> Vec<u32> {
    let words = bytes
        .chunks_exact(4)
        .map(|word| [word[0], word[1], word[2], word[3]]);
    words.map(u32::from_be_bytes).collect()
}

/// Headers of no words, padding, and a command that acts again at a FAR write.
fn odd() -> Vec<u8> {
    let mut stream = begun(0);
    stream
        .words(&[0, 0x3000_4000, 0x5000_0000, 0x3000_2000])
        .no_ops(2)
        .command(3)
        .write(register::FAR, &[0x0600_0000])
        .write(register::COR, &[1, 2])
        .command(13)
        .words(&[0xAA99_5566])
        .write(register::FAR, &[0]);
    stream.into_bytes()
}

/// The good stream, cut in each phase.
fn cut() -> Named {
    let good = partial(0);
    let up_to = |length: usize| good[..length].to_vec();
    vec![
        ("cut-hunting.bit", up_to(7)),
        ("cut-header.bit", up_to(36)),
        ("cut-word.bit", up_to(39)),
        ("cut-data.bit", up_to(AUTO_CRC - 150)),
        ("cut-data-rest.bit", good[AUTO_CRC - 150..].to_vec()),
        ("cut-before-crc.bit", up_to(AUTO_CRC)),
        ("cut-before-desync.bit", up_to(good.len() - 8)),
        ("cut-mfwr.bit", multiple(0)[..4 * (14 + 37 + 5)].to_vec()),
    ]
}

/// Files that are no stream, or one in other clothes.
fn strange() -> Named {
    let good = partial(0);
    let mut damaged_sync = good.clone();
    damaged_sync[5] ^= 4;
    vec![
        ("empty.bit", Vec::new()),
        ("one-byte.bit", vec![0xAA]),
        ("zeros.bit", vec![0; 1000]),
        ("ones.bit", vec![0xFF; 1000]),
        ("ones.img", vec![0xFF; PARTS[0].memory_bytes()]),
        ("damaged-sync.bit", damaged_sync),
        ("bits-reversed.bit", bits_reversed(&good)),
        ("pairs-swapped.bit", turned(&good, 2)),
        ("words-reversed.bit", turned(&good, 4)),
        (
            "words-reversed-odd.bit",
            [&[0xFF][..], &turned(&good, 4)].concat(),
        ),
        ("gzip.bit", gzip()),
        ("zip.bit", b"PK\x03\x04\x14\0\0\0".to_vec()),
        ("xz.bit", b"\xFD7zXZ\0\0\x04".to_vec()),
        ("hex.txt", hex_text(&good)),
        ("junk.bit", (0..=255).rev().collect()),
    ]
}

fn layouts() -> Named {
    let both = [frame_write(0, 3, 2), multi_frame_write(0, &[1, 367])];
    vec![
        ("good.layout", layout(0, &both)),
        ("left.layout", layout(0, &[frame_write(0, 3, 2)])),
        ("no-steps.layout", layout(0, &[])),
        ("other-part.layout", layout(1, &[frame_write(1, 614, 1)])),
    ]
}

fn refused_layouts() -> Named {
    let one = |step: Vec<u8>| layout(0, &[step]);
    let good = one(frame_write(0, 3, 2));
    let to_two = multi_frame_write(0, &[3, 4]);
    vec![
        ("long-number.layout", vec![0x81, 0, 0, 0]),
        (
            "large-number.layout",
            vec![1, 0, 0xFF, 0xFF, 0xFF, 0xFF, 0x10, 0],
        ),
        ("cut-number.layout", vec![1, 0, 0xFF]),
        ("many-steps.layout", vec![1, 0, 0x81, 0x20]),
        ("edition2.layout", vec![2, 0, 0]),
        ("device9.layout", vec![1, 9, 0]),
        ("short.layout", good[..100].to_vec()),
        ("extra.layout", [&good[..], b"\x01\x02"].concat()),
        ("kind3.layout", one(vec![3, 0, 1])),
        (
            "second-kind3.layout",
            layout(0, &[frame_write(0, 3, 2), vec![3, 0, 1]]),
        ),
        ("no-count.layout", one(vec![1, 3, 0])),
        ("no-targets.layout", one(multi_frame_write(0, &[]))),
        ("no-target.layout", one(to_two[..to_two.len() - 1].to_vec())),
        ("falling.layout", one(multi_frame_write(0, &[3, 1]))),
        ("past.layout", one(frame_write(0, 367, 2))),
        ("past-target.layout", one(multi_frame_write(0, &[3, 368]))),
        ("past-targets.layout", vec![1, 0, 1, 2, 0xF1, 2]),
        ("past-range.layout", vec![1, 0, 1, 1, 0x80, 2, 1]),
    ]
}

const DESKS: &[(&str, &str)] = &[
    (
        "good",
        "# the desk by the window\npart XC3S50\n\nseat left 3:2 # two frames\nseat right 200:100\n",
    ),
    ("no-seats", "part XC3S50\n"),
    ("empty", ""),
    ("keyword", "part XC3S50\nchair left 3:2\n"),
    ("no-part", "seat left 3:2\n"),
    ("part-twice", "part XC3S50\npart XC3S50\n"),
    ("part-unknown", "part XC3S51\n"),
    ("part-number-9", "part 9\n"),
    ("part-bare", "part\n"),
    ("part-two-words", "part XC3S50 XC3S200\n"),
    ("seat-bare", "part XC3S50\nseat\n"),
    ("seat-no-frames", "part XC3S50\nseat left\n"),
    ("seat-word", "part XC3S50\nseat left three:2\n"),
    ("seat-large", "part XC3S50\nseat left 3:4294967296\n"),
    ("seat-twice", "part XC3S50\nseat left 3:2\nseat left 5:2\n"),
    ("seat-runs", "part XC3S50\nseat left 3:2 7:2\n"),
    ("seat-blanks", "part XC3S50\nseat colne 62 : 19\n"),
    ("seat-past", "part XC3S50\nseat left 364:5\n"),
    ("seat-of-none", "part XC3S50\nseat left 3:0\n"),
    ("windows", "part XC3S50\r\nseat left 3:2\r\n"),
    // A byte order mark, as some editors put before the text.
    ("marked", "\u{feff}part XC3S50\nseat left 3:2\n"),
];
