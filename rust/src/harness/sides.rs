//! The two loaders over record images, and what tells their ends apart.

use crate::generate::random::Random;
use crate::harness::ffi;
use crate::independent::loader::{self, RECORD_BYTES};
use crate::independent::names::field;
use crate::independent::reference::PARTS;

type PowerOn = fn(u32, &mut [u8], &mut [u8]) -> u32;
type Load = fn(&mut [u8], &mut [u8], &[u8]) -> (u32, u64);

/// One of the two loaders, as the C interface has it.
pub struct Side {
    pub name: &'static str,
    power_on: PowerOn,
    load: Load,
}

pub const INDEPENDENT: Side = Side {
    name: "the independent loader",
    power_on: loader::power_on,
    load: loader::load,
};

pub const PROVED: Side = Side {
    name: "the proved library",
    power_on: ffi::power_on,
    load: ffi::load,
};

/// A record's image and a frame memory.
#[derive(Clone, PartialEq, Eq)]
pub struct State {
    pub record: Vec<u8>,
    pub memory: Vec<u8>,
}

/// A word of a record's image.
pub fn image_word(record: &[u8], index: usize) -> u32 {
    let bytes = record[4 * index..].first_chunk();
    u32::from_be_bytes(*bytes.expect("the image has 237 words"))
}

impl State {
    /// Bytes that no function wrote, so that one left out shows.
    pub fn junk(random: &mut Random, record_bytes: usize, memory_bytes: usize) -> Self {
        Self {
            record: random.bytes(record_bytes),
            memory: random.bytes(memory_bytes),
        }
    }

    pub fn word(&self, index: usize) -> u32 {
        image_word(&self.record, index)
    }

    /// The bytes of a frame.
    pub fn frame(&self, number: u32) -> &[u8] {
        let part = &PARTS[self.word(field::DEVICE) as usize];
        let length = part.frame_bytes();
        &self.memory[length * number as usize..][..length]
    }
}

/// What a call left and answered; taken is 0 for a power-on.
#[derive(PartialEq, Eq)]
pub struct End {
    pub code: u32,
    pub taken: u64,
    pub state: State,
}

impl Side {
    /// Powers a part on over junk.
    pub fn powered(&self, device: u32) -> State {
        let memory_bytes = PARTS[device as usize].memory_bytes();
        let junk = State::junk(&mut Random::new(4), RECORD_BYTES, memory_bytes);
        let end = self.power_on(&junk, device);
        assert_eq!(end.code, 0, "{}, device {device}", self.name);
        end.state
    }

    pub fn power_on(&self, start: &State, device: u32) -> End {
        let mut state = start.clone();
        let code = (self.power_on)(device, &mut state.record, &mut state.memory);
        let taken = 0;
        End { code, taken, state }
    }

    pub fn load(&self, start: &State, stream: &[u8]) -> End {
        self.load_pieces(start, &[stream])
    }

    /// The last piece's code; the bytes taken from all pieces.
    pub fn load_pieces(&self, start: &State, pieces: &[&[u8]]) -> End {
        let mut state = start.clone();
        let (mut code, mut taken) = (0, 0);
        for piece in pieces {
            let (piece_code, piece_taken) =
                (self.load)(&mut state.record, &mut state.memory, piece);
            code = piece_code;
            // A taken that was never written is no reason to overflow.
            taken = u64::wrapping_add(taken, piece_taken);
        }
        End { code, taken, state }
    }
}

/// Cuts a stream at random places, at times between all bytes; pieces may be empty.
pub fn cut<'a>(random: &mut Random, stream: &'a [u8]) -> Vec<&'a [u8]> {
    if (1..200).contains(&stream.len()) && random.one_in(16) {
        return stream.chunks(1).collect();
    }
    let cuts = 1 + random.below(5);
    let mut places: Vec<usize> = (0..cuts).map(|_| random.place(stream.len())).collect();
    places.extend([0, stream.len()]);
    places.sort_unstable();
    places
        .windows(2)
        .map(|pair| &stream[pair[0]..pair[1]])
        .collect()
}

/// Loads a stream on both sides, whole and in pieces, and asserts the same end.
pub fn compare(random: &mut Random, start: &State, stream: &[u8], case: &str) -> End {
    let tell = |how: &str| {
        let (record, stream) = (hex(&start.record), hex(stream));
        format!("{case}, {how}\nrecord {record}\nstream {stream}")
    };
    let expected = INDEPENDENT.load(start, stream);
    let end = PROVED.load(start, stream);
    assert_same(&expected, &end, || tell("whole"));
    let pieces = cut(random, stream);
    let in_pieces = PROVED.load_pieces(start, &pieces);
    assert_same(&expected, &in_pieces, || {
        let lengths: Vec<usize> = pieces.iter().map(|piece| piece.len()).collect();
        tell(&format!("cut into {lengths:?}"))
    });
    end
}

/// The first bytes in hexadecimal, enough for any generated stream.
pub fn hex(bytes: &[u8]) -> String {
    let shown = bytes.iter().take(8192);
    shown.map(|byte| format!("{byte:02X}")).collect()
}

/// Asserts that two ends are the same; `what` tells of the case where they are not.
pub fn assert_same(expected: &End, end: &End, what: impl FnOnce() -> String) {
    if expected == end {
        return;
    }
    let mut report = vec![what()];
    report.push(format!(
        "code {}, taken {}; expected {}, {}",
        end.code, end.taken, expected.code, expected.taken
    ));
    let words = end.state.record.len().min(expected.state.record.len()) / 4;
    for index in 0..words {
        let (word, wanted) = (end.state.word(index), expected.state.word(index));
        if word != wanted {
            report.push(format!(
                "record word {index}: {word:08X}, expected {wanted:08X}"
            ));
        }
    }
    let mut bytes = end.state.memory.iter().zip(&expected.state.memory);
    if let Some(place) = bytes.position(|(byte, wanted)| byte != wanted) {
        report.push(format!("memory from byte {place} on"));
    }
    panic!("{}", report.join("\n"));
}
