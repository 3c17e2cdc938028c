//! Streams as the maker's tools write them (document 001, Tables 9 to 11), with right CRC words.

use crate::independent::names::{command, register, SYNC};
use crate::independent::reference::{self, Lookups, PARTS};

const DUMMY: u32 = 0xFFFF_FFFF;
pub const NO_OP: u32 = 0x2000_0000;
/// The options that 001's samples write to COR.
const SAMPLE_OPTIONS: u32 = 0x0000_3FE5;

/// The header of a type 1 write.
pub fn write_header(register: u32, count: u32) -> u32 {
    0x3000_0000 | (register << 13) | count
}

/// The header of a type 2 write.
pub fn long_header(count: u32) -> u32 {
    0x5000_0000 | count
}

/// A stream being written, with the CRC register and the command that the part has after it.
#[derive(Clone, Default)]
pub struct Stream {
    bytes: Vec<u8>,
    crc: u32,
    command: u32,
}

impl Stream {
    /// A stream that has just woken the part.
    pub fn synced() -> Self {
        let mut stream = Self::default();
        stream.words(&[DUMMY, SYNC]);
        stream
    }

    /// A stream after which the part takes frames.
    pub fn ready(device: u32) -> Self {
        let part = &PARTS[device as usize];
        let mut stream = Self::synced();
        stream
            .command(command::RCRC)
            .write(register::FLR, &[part.frame_words() - 1])
            .write(register::IDCODE, &[part.idcode]);
        stream
    }

    /// Words as they are: the caller knows that no CRC is fed.
    pub fn words(&mut self, words: &[u32]) -> &mut Self {
        let bytes = words.iter().flat_map(|word| word.to_be_bytes());
        self.bytes.extend(bytes);
        self
    }

    pub fn no_ops(&mut self, count: u32) -> &mut Self {
        self.words(&vec![NO_OP; count as usize])
    }

    /// Data words to a register, header apart.
    fn data(&mut self, register: u32, words: &[u32]) -> &mut Self {
        for &word in words {
            if register != register::LOUT {
                self.crc = reference::crc(self.crc, register, word);
            }
            if register == register::CMD {
                self.command = word;
            }
            let acts = matches!(register, register::CMD | register::FAR);
            if acts && self.command == command::RCRC {
                self.crc = 0;
            }
        }
        self.words(words)
    }

    /// A type 1 write.
    pub fn write(&mut self, register: u32, words: &[u32]) -> &mut Self {
        self.words(&[write_header(register, words.len() as u32)])
            .data(register, words)
    }

    pub fn command(&mut self, command: u32) -> &mut Self {
        self.write(register::CMD, &[command])
    }

    /// The CRC word that passes.
    fn check_word(&mut self) -> &mut Self {
        let word = reference::check_word(self.crc);
        self.data(register::CRC, &[word])
    }

    /// A write to CRC that passes.
    pub fn check(&mut self) -> &mut Self {
        self.words(&[write_header(register::CRC, 1)]).check_word()
    }

    /// Frames to FDRI, the pad frame among them, with the auto CRC word.
    pub fn frames(&mut self, words: &[u32]) -> &mut Self {
        self.frames_before_check(words).check_word()
    }

    /// Frames and a pad frame to FDRI, with the auto CRC word.
    pub fn padded_frames(&mut self, words: &[u32], frame_words: u32) -> &mut Self {
        let mut padded = words.to_vec();
        padded.resize(words.len() + frame_words as usize, 0);
        self.frames(&padded)
    }

    /// Frames to FDRI, the auto CRC word still to come.
    pub fn frames_before_check(&mut self, words: &[u32]) -> &mut Self {
        self.words(&[
            write_header(register::FDRI, 0),
            long_header(words.len() as u32),
        ])
        .data(register::FDRI, words)
    }

    /// The frame in hand to each address; the command stands from the first on.
    pub fn multiple_writes(&mut self, addresses: impl IntoIterator<Item = u32>) -> &mut Self {
        for (index, address) in addresses.into_iter().enumerate() {
            self.write(register::FAR, &[address]);
            if index == 0 {
                self.command(command::MFWR);
            }
            self.write(register::MFWR, &[0, 0]);
        }
        self
    }

    pub fn bytes(&self) -> &[u8] {
        &self.bytes
    }

    pub fn into_bytes(self) -> Vec<u8> {
        self.bytes
    }
}

/// A full configuration; `frames` are all words of the part's memory.
pub fn full_configuration(device: u32, frames: &[u32]) -> Vec<u8> {
    let part = &PARTS[device as usize];
    let frame_words = part.frame_words();
    let mut stream = Stream::synced();
    stream
        .command(command::RCRC)
        .write(register::FLR, &[frame_words - 1])
        .write(register::COR, &[SAMPLE_OPTIONS])
        .write(register::IDCODE, &[part.idcode])
        .write(register::MASK, &[0])
        .command(command::SWITCH)
        .write(register::FAR, &[0])
        .command(command::WCFG)
        .padded_frames(frames, frame_words)
        .command(command::GRESTORE)
        .command(command::LFRM)
        .no_ops(frame_words)
        .command(command::START)
        .write(register::CTL, &[0])
        .check()
        .command(command::DESYNC)
        .no_ops(4);
    stream.into_bytes()
}

/// 001's steps for one frame to many places; they end with a check and DESYNC.
pub fn multiple_frame_write(
    lookups: &Lookups,
    device: u32,
    frame: &[u32],
    targets: &[u32],
) -> Vec<u8> {
    let addresses = targets
        .iter()
        .map(|&target| lookups.frame_address(device, target).1);
    let mut stream = Stream::ready(device);
    stream
        .command(command::WCFG)
        .frames(frame)
        .multiple_writes(addresses)
        .check()
        .command(command::DESYNC);
    stream.into_bytes()
}
