//! The record as an image of 237 words, and the loader over images as the C interface has it.

use super::{packet, Flags, Phase, Record, BAD_RECORD, REGISTERS};
use crate::independent::names::register;
use std::array;

/// The length of a record's image.
pub const RECORD_BYTES: usize = 948;
const WORDS: usize = RECORD_BYTES / 4;
const FIRST_REGISTER: usize = 9;
const FIRST_OF_FRAME: usize = FIRST_REGISTER + REGISTERS;
/// The current frame where there is none.
const NONE: u32 = 0xFFFF_FFFF;

/// Powers a part on into a record's image and its memory; the code.
pub fn power_on(number: u32, record: &mut [u8], memory: &mut [u8]) -> u32 {
    if record.len() != RECORD_BYTES {
        return BAD_RECORD;
    }
    let (code, device) = Record::power_on(number, memory);
    record.copy_from_slice(&device.encode());
    code
}

/// Loads a piece of a stream; the code and the bytes taken.
pub fn load(record: &mut [u8], memory: &mut [u8], stream: &[u8]) -> (u32, u64) {
    let Some(mut device) = Record::decode(record) else {
        return (BAD_RECORD, 0);
    };
    let answer = device.load(memory, stream.iter().copied());
    record.copy_from_slice(&device.encode());
    answer
}

impl Flags {
    fn from_bits(bits: u32) -> Self {
        let is_set = |bit: u32| (bits >> bit) & 1 == 1;
        Self {
            idcode_accepted: is_set(0),
            flr_accepted: is_set(1),
            frame_in_hand: is_set(2),
            ghigh: is_set(3),
            start_pending: is_set(4),
            check_passed: is_set(5),
            started: is_set(6),
        }
    }

    fn bits(self) -> u32 {
        let flags = [
            self.idcode_accepted,
            self.flr_accepted,
            self.frame_in_hand,
            self.ghigh,
            self.start_pending,
            self.check_passed,
            self.started,
        ];
        (0..)
            .zip(flags)
            .map(|(bit, flag)| u32::from(flag) << bit)
            .sum()
    }
}

impl Record {
    /// The record of an image, none where it is the image of no consistent record.
    pub fn decode(image: &[u8]) -> Option<Self> {
        if image.len() != RECORD_BYTES {
            return None;
        }
        let words = array::from_fn(|index| {
            let bytes = array::from_fn(|byte| image[4 * index + byte]);
            u32::from_be_bytes(bytes)
        });
        let device = Self::read(&words)?;
        // Whatever the reading passed over shows in the image of what was read.
        (device.is_consistent() && device.encode() == image).then_some(device)
    }

    fn read(words: &[u32; WORDS]) -> Option<Self> {
        let phase = match words[1] {
            0 => Phase::Hunting,
            1 => Phase::Header(words[2].checked_sub(1)),
            2 => Phase::Data {
                register: words[2],
                left: words[3],
            },
            3 => Phase::Crc,
            4 => Phase::Stopped(words[2]),
            _ => return None,
        };
        let byte_count = words[5].min(4) as usize;
        Some(Self {
            number: words[0],
            phase,
            bytes: words[6].to_be_bytes()[4 - byte_count..].to_vec(),
            current: (words[7] != NONE).then_some(words[7]),
            flags: Flags::from_bits(words[8]),
            registers: array::from_fn(|index| words[FIRST_REGISTER + index]),
            frame: array::from_fn(|index| words[FIRST_OF_FRAME + index]),
        })
    }

    /// The image of a consistent record.
    pub fn encode(&self) -> Vec<u8> {
        let phase = match self.phase {
            Phase::Hunting => [0; 4],
            Phase::Header(open) => [1, open.map_or(0, |register| register + 1), 0, 0],
            Phase::Data { register, left } => {
                let filled = match register {
                    register::FDRI => self.filled(left),
                    _ => 0,
                };
                [2, register, left, filled]
            }
            Phase::Crc => [3, 0, 0, 0],
            Phase::Stopped(number) => [4, number, 0, 0],
        };
        let bytes = self
            .bytes
            .iter()
            .fold(0, |all, &byte| (all << 8) | u32::from(byte));
        let current = self.current.unwrap_or(NONE);
        let mut words = vec![self.number];
        words.extend(phase);
        words.extend([self.bytes.len() as u32, bytes, current, self.flags.bits()]);
        words.extend((0..).zip(self.registers).map(|(register, word)| {
            if packet::is_writable(register) {
                word
            } else {
                0
            }
        }));
        words.extend(self.frame);
        words.iter().flat_map(|word| word.to_be_bytes()).collect()
    }
}
