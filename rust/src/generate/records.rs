//! Random record images: of consistent records in every phase, and damaged ones.

use crate::generate::random::Random;
use crate::independent::names::{command, flag, register};
use crate::independent::reference::{Part, PARTS};

const MOST_WORDS: u32 = 134_217_727;
const NONE: u32 = 0xFFFF_FFFF;
const READY: u32 = flag::IDCODE_ACCEPTED | flag::FLR_ACCEPTED | flag::FRAME_IN_HAND;

/// The registers that take any count.
const PLAIN: [u32; 9] = [
    register::CRC,
    register::FAR,
    register::CMD,
    register::CTL,
    register::MASK,
    register::LOUT,
    register::COR,
    register::FLR,
    register::IDCODE,
];

/// A write header's first bytes and the sync word's, so that a partial word can become a good one.
const BEGINNINGS: [u32; 3] = [0x0030_0080, 0x0030_0040, 0x00AA_9955];

fn image(words: &[u32]) -> Vec<u8> {
    words.iter().flat_map(|word| word.to_be_bytes()).collect()
}

/// The image of a consistent record.
pub fn consistent(random: &mut Random, device: u32) -> Vec<u8> {
    image(&consistent_words(random, device))
}

/// The image of a consistent record in a phase.
pub fn in_phase(random: &mut Random, device: u32, phase: u32) -> Vec<u8> {
    image(&words_in_phase(random, device, phase))
}

fn consistent_words(random: &mut Random, device: u32) -> Vec<u32> {
    let phase = random.below(5);
    words_in_phase(random, device, phase)
}

fn words_in_phase(random: &mut Random, device: u32, phase: u32) -> Vec<u32> {
    let part = &PARTS[device as usize];
    let mut flags = random.below(128);
    // Half of the parts have accepted IDCODE and FLR and hold a frame.
    if random.one_in(2) {
        flags |= READY;
    }
    let (argument, left, filled) = match phase {
        1 if random.one_in(2) => (random.pick(&register::WRITABLE) + 1, 0, 0),
        2 => open_packet(random, part),
        4 => (1 + random.below(10), 0, 0),
        _ => (0, 0, 0),
    };
    match (phase, argument) {
        (0, _) => flags &= !flag::START_PENDING,
        (2, register::MFWR) => flags |= flag::FRAME_IN_HAND,
        _ => {}
    }
    let mut words = vec![device, phase, argument, left, filled];
    words.extend(part_word(random));
    words.extend([current_frame(random, part), flags]);
    words.extend((0..15).map(|register| register_word(random, register)));
    words.extend((0..213).map(|_| random.next_u32()));
    words
}

/// The register, the words left and the filled words of a frame.
fn open_packet(random: &mut Random, part: &Part) -> (u32, u32, u32) {
    let frame_words = part.frame_words();
    let most = match random.below(4) {
        0 => MOST_WORDS,
        _ => 4,
    };
    match random.below(3) {
        0 => {
            let within = random.below(frame_words);
            let filled = random.pick(&[0, frame_words - 1, within]);
            let frames = 1 + random.below((most / frame_words).max(3));
            (register::FDRI, frames * frame_words - filled, filled)
        }
        1 => (register::MFWR, 1 + random.below(2), 0),
        _ => (random.pick(&PLAIN), 1 + random.below(most), 0),
    }
}

/// How many bytes, and the bytes as one number.
fn part_word(random: &mut Random) -> [u32; 2] {
    let count = random.pick(&[0, 0, 0, 1, 2, 3]);
    let bytes = match random.below(2) {
        0 => random.next_u32() & 0x00FF_FFFF,
        _ => random.pick(&BEGINNINGS),
    };
    [count, bytes >> (8 * (3 - count))]
}

fn current_frame(random: &mut Random, part: &Part) -> u32 {
    let frames = part.frame_count();
    match random.below(4) {
        0 => NONE,
        1 => frames - 1 - random.below(3),
        _ => random.below(frames),
    }
}

fn register_word(random: &mut Random, register: u32) -> u32 {
    match register {
        register::CRC => random.below(65_536),
        register::CMD if random.one_in(4) => random.below(14),
        register::CMD => random.pick(&[command::WCFG, command::MFWR, command::DESYNC]),
        _ if register::WRITABLE.contains(&register) => random.next_u32(),
        _ => 0,
    }
}

/// The image of a consistent record with some fields changed; many are of no consistent record.
pub fn damaged(random: &mut Random, device: u32) -> Vec<u8> {
    let mut words = consistent_words(random, device);
    for _ in 0..1 + random.below(2) {
        let place = match random.below(8) {
            0 => random.below(237),
            1..=3 => random.below(24),
            _ => random.below(9),
        };
        let word = &mut words[place as usize];
        *word = other_word(random, &PARTS[device as usize], *word);
    }
    image(&words)
}

fn other_word(random: &mut Random, part: &Part, word: u32) -> u32 {
    match random.below(6) {
        0 => random.next_u32(),
        1 => word ^ (1 << random.below(32)),
        2 => word.wrapping_add(1),
        3 => word.wrapping_sub(1),
        4 => random.below(17),
        _ => random.pick(&[
            0,
            part.frame_words(),
            part.frame_count() - 1,
            part.frame_count(),
            65_535,
            65_536,
            MOST_WORDS,
            MOST_WORDS + 1,
            NONE,
        ]),
    }
}
