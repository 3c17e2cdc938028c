//! A loader written from the scope paper (01) alone, to hold the proved library against.
//!
//! It tries each word on the record itself and, at a stop, takes the record from before the word
//! back: that is the paper's rule for a bad word, so nothing here is ordered to keep it. How much
//! of a frame is filled is not kept but told from the words left, as a packet is whole frames.

mod image;
mod packet;

use self::packet::{Packet, Stop};
use crate::independent::names::{command, register, SYNC};
use crate::independent::reference::{self, Part, LOOKUPS, PARTS};

pub use self::image::{load, power_on, RECORD_BYTES};

const NO_DEVICE: u32 = 21;
pub(crate) const BAD_RECORD: u32 = 22;
pub(crate) const BAD_MEMORY: u32 = 23;

/// The registers have addresses up to 14, two of them of no register.
const REGISTERS: usize = 15;
/// The words of the longest frame.
const BUFFER_WORDS: usize = 213;
/// The largest count of a type 2 header.
const MOST_WORDS: u32 = 134_217_727;

#[derive(Clone, Copy, PartialEq, Eq, Debug)]
pub enum Phase {
    Hunting,
    /// With the register that a type 2 header would use.
    Header(Option<u32>),
    Data {
        register: u32,
        left: u32,
    },
    Crc,
    Stopped(u32),
}

/// The paper's flags, all clear at power-on.
#[derive(Clone, Copy, PartialEq, Eq, Debug, Default)]
pub struct Flags {
    pub idcode_accepted: bool,
    pub flr_accepted: bool,
    pub frame_in_hand: bool,
    pub ghigh: bool,
    pub start_pending: bool,
    pub check_passed: bool,
    pub started: bool,
}

/// The device record.
#[derive(Clone, PartialEq, Eq, Debug)]
pub struct Record {
    pub number: u32,
    pub phase: Phase,
    /// Bytes of a partial word; while hunting, the last up to three.
    pub bytes: Vec<u8>,
    pub current: Option<u32>,
    pub flags: Flags,
    pub registers: [u32; REGISTERS],
    frame: [u32; BUFFER_WORDS],
}

impl Record {
    fn fresh(number: u32) -> Self {
        Self {
            number,
            phase: Phase::Hunting,
            bytes: Vec::new(),
            current: Some(0),
            flags: Flags::default(),
            registers: [0; REGISTERS],
            frame: [0; BUFFER_WORDS],
        }
    }

    /// The code, and the record of the part just powered on; a refusal gives device 0's.
    pub fn power_on(number: u32, memory: &mut [u8]) -> (u32, Self) {
        let Some(part) = PARTS.get(number as usize) else {
            return (NO_DEVICE, Self::fresh(0));
        };
        if memory.len() != part.memory_bytes() {
            return (BAD_MEMORY, Self::fresh(0));
        }
        memory.fill(0);
        (0, Self::fresh(number))
    }

    pub fn part(&self) -> &'static Part {
        &PARTS[self.number as usize]
    }

    /// The paper's list, but for the filled part of a frame, which is not kept.
    pub fn is_consistent(&self) -> bool {
        let Some(part) = PARTS.get(self.number as usize) else {
            return false;
        };
        self.current.is_none_or(|frame| frame < part.frame_count())
            && self.registers[register::CRC as usize] < 65_536
            && self.registers[register::CMD as usize] <= 13
            && self.bytes.len() < 4
            && match self.phase {
                Phase::Hunting => !self.flags.start_pending,
                Phase::Header(open) => open.is_none_or(packet::is_writable),
                Phase::Data { register, left } => self.may_have_left(register, left),
                Phase::Crc => true,
                Phase::Stopped(number) => (1..=10).contains(&number),
            }
    }

    fn may_have_left(&self, register: u32, left: u32) -> bool {
        let most = match register {
            register::MFWR if self.flags.frame_in_hand => 2,
            register::MFWR => 0,
            _ => MOST_WORDS,
        };
        packet::is_writable(register) && (1..=most).contains(&left)
    }

    /// The refusal or stop number, 0 for none, and the bytes taken.
    pub fn load(&mut self, memory: &mut [u8], bytes: impl IntoIterator<Item = u8>) -> (u32, u64) {
        if !self.is_consistent() {
            return (BAD_RECORD, 0);
        }
        if memory.len() != self.part().memory_bytes() {
            return (BAD_MEMORY, 0);
        }
        let mut bytes = bytes.into_iter();
        let mut taken = 0;
        loop {
            if let Phase::Stopped(number) = self.phase {
                return (number, taken);
            }
            let Some(byte) = bytes.next() else {
                return (0, taken);
            };
            self.take(memory, byte);
            taken += 1;
        }
    }

    fn take(&mut self, memory: &mut [u8], byte: u8) {
        self.bytes.push(byte);
        let Ok(four) = <[u8; 4]>::try_from(self.bytes.as_slice()) else {
            return;
        };
        let word = u32::from_be_bytes(four);
        if self.phase == Phase::Hunting && word != SYNC {
            self.bytes.remove(0);
            return;
        }
        self.bytes.clear();
        match self.phase {
            Phase::Hunting => self.phase = Phase::Header(None),
            _ => self.take_word(memory, word),
        }
    }

    fn take_word(&mut self, memory: &mut [u8], word: u32) {
        let before = self.clone();
        if let Err(stop) = self.try_word(memory, word) {
            let fed = self.registers[register::CRC as usize];
            *self = before;
            self.phase = Phase::Stopped(stop as u32);
            // The one thing that a bad word leaves behind.
            if stop == Stop::Check {
                self.registers[register::CRC as usize] = fed;
            }
        }
    }

    fn try_word(&mut self, memory: &mut [u8], word: u32) -> Result<(), Stop> {
        match self.phase {
            Phase::Header(open) => {
                self.phase = self.after_header(packet::parse(word, open)?)?;
                Ok(())
            }
            Phase::Data { register, left } => {
                self.phase = match (register, left - 1) {
                    (register::FDRI, 0) => Phase::Crc,
                    (_, 0) => Phase::Header(None),
                    (_, left) => Phase::Data { register, left },
                };
                // After the phase, which a DESYNC overrules.
                self.write(memory, register, word, left)
            }
            Phase::Crc => {
                self.phase = Phase::Header(None);
                self.write(memory, register::CRC, word, 1)
            }
            Phase::Hunting | Phase::Stopped(_) => unreachable!("takes no words"),
        }
    }

    fn after_header(&self, packet: Packet) -> Result<Phase, Stop> {
        match packet {
            Packet::Nothing => Ok(Phase::Header(None)),
            Packet::Open(register) => Ok(Phase::Header(Some(register))),
            Packet::Write { register, count } => {
                self.check_count(register, count)?;
                Ok(Phase::Data {
                    register,
                    left: count,
                })
            }
        }
    }

    /// Stops 6 and 7 of a nonzero count.
    fn check_count(&self, register: u32, count: u32) -> Result<(), Stop> {
        let flags = self.flags;
        let frame_words = self.part().frame_words();
        let (wanted, has_frame, is_whole) = match register {
            register::FDRI => (command::WCFG, true, count.is_multiple_of(frame_words)),
            register::MFWR => (command::MFWR, flags.frame_in_hand, count == 2),
            _ => return Ok(()),
        };
        let is_accepted = flags.idcode_accepted && flags.flr_accepted;
        if !is_accepted || !has_frame || self.registers[register::CMD as usize] != wanted {
            Err(Stop::NotReady)
        } else if !is_whole {
            Err(Stop::Count)
        } else {
            Ok(())
        }
    }

    /// Writes a word; `left` counts it and those that follow it in its packet.
    fn write(
        &mut self,
        memory: &mut [u8],
        register: u32,
        word: u32,
        left: u32,
    ) -> Result<(), Stop> {
        self.feed(register, word);
        self.keep(register, word);
        let part = self.part();
        match register {
            register::CRC if self.registers[register::CRC as usize] != 0 => Err(Stop::Check),
            register::IDCODE if word != part.idcode => Err(Stop::Idcode),
            register::FLR if word != part.frame_words() - 1 => Err(Stop::FrameLength),
            register::CMD if word > 13 => Err(Stop::Command),
            register::FDRI => self.fill(memory, word, left),
            register::MFWR if left == 1 => self.store(memory).map(|_| ()),
            _ => {
                self.note(register, word);
                Ok(())
            }
        }
    }

    fn feed(&mut self, register: u32, word: u32) {
        if register != register::LOUT {
            let crc = &mut self.registers[register::CRC as usize];
            *crc = reference::crc(*crc, register, word);
        }
    }

    fn keep(&mut self, register: u32, word: u32) {
        let mask = match register {
            register::CRC => 0,
            register::CTL => self.registers[register::MASK as usize],
            _ => u32::MAX,
        };
        let kept = &mut self.registers[register as usize];
        *kept = (*kept & !mask) | (word & mask);
    }

    /// What a good word does beyond its register.
    fn note(&mut self, register: u32, word: u32) {
        match register {
            register::CRC => self.flags.check_passed = true,
            register::IDCODE => self.flags.idcode_accepted = true,
            register::FLR => self.flags.flr_accepted = true,
            register::FAR => {
                let (_, frame) = LOOKUPS.frame_number(self.number, word);
                self.current = (frame != u32::MAX).then_some(frame);
                self.act();
            }
            register::CMD => self.act(),
            _ => {}
        }
    }

    fn act(&mut self) {
        let flags = &mut self.flags;
        match self.registers[register::CMD as usize] {
            command::RCRC => self.registers[register::CRC as usize] = 0,
            command::AGHIGH => flags.ghigh = true,
            command::LFRM => flags.ghigh = false,
            command::START => {
                flags.start_pending = true;
                flags.check_passed = false;
            }
            command::DESYNC => {
                flags.started |= flags.start_pending && flags.check_passed && flags.idcode_accepted;
                flags.start_pending = false;
                self.phase = Phase::Hunting;
            }
            _ => {}
        }
    }

    /// How many words of the frame came before a word of FDRI.
    fn filled(&self, left: u32) -> u32 {
        let frame_words = self.part().frame_words();
        frame_words - 1 - (left - 1) % frame_words
    }

    fn fill(&mut self, memory: &mut [u8], word: u32, left: u32) -> Result<(), Stop> {
        let filled = self.filled(left);
        self.frame[filled as usize] = word;
        if left == 1 {
            self.flags.frame_in_hand = true;
        } else if filled + 1 == self.part().frame_words() {
            let next = self.store(memory)? + 1;
            self.current = (next < self.part().frame_count()).then_some(next);
        }
        Ok(())
    }

    /// Stores the frame at the current one, and tells which that was.
    fn store(&self, memory: &mut [u8]) -> Result<u32, Stop> {
        let number = self.current.ok_or(Stop::NoFrame)?;
        let frame_bytes = self.part().frame_bytes();
        let place = memory[frame_bytes * number as usize..][..frame_bytes].chunks_exact_mut(4);
        for (bytes, word) in place.zip(self.frame) {
            bytes.copy_from_slice(&word.to_be_bytes());
        }
        Ok(number)
    }
}
