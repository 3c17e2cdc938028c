//! Random streams that follow the part: the record that the independent loader has reached chooses
//! each next word, so that most streams go deep.

use crate::generate::random::Random;
use crate::independent::loader::{Phase, Record};
use crate::independent::names::{command, register, SYNC};
use crate::independent::reference::{self, Lookups};
use crate::independent::stream::{long_header, write_header, NO_OP};

/// One word in so many is damaged; 0 is for none.
const DAMAGE: [u32; 6] = [0, 0, 0, 200, 60, 12];

const WISHES: [u32; 22] = [
    register::FDRI,
    register::FDRI,
    register::FDRI,
    register::FDRI,
    register::MFWR,
    register::MFWR,
    register::MFWR,
    register::FAR,
    register::FAR,
    register::FAR,
    register::CMD,
    register::CMD,
    register::CMD,
    register::CRC,
    register::CRC,
    register::CRC,
    register::CTL,
    register::MASK,
    register::COR,
    register::LOUT,
    register::IDCODE,
    register::FLR,
];

const COMMANDS: [u32; 12] = [
    command::WCFG,
    command::WCFG,
    command::WCFG,
    command::MFWR,
    command::MFWR,
    command::START,
    command::START,
    command::DESYNC,
    command::DESYNC,
    command::RCRC,
    command::AGHIGH,
    command::LFRM,
];

struct Guide<'a> {
    random: &'a mut Random,
    lookups: &'a Lookups,
    record: Record,
    damage: u32,
}

/// A stream for the record; the scratch memory is of the part's length.
pub fn stream(
    random: &mut Random,
    lookups: &Lookups,
    record: Record,
    scratch: &mut [u8],
) -> Vec<u8> {
    let pieces = 8 + random.below(220);
    let damage = random.pick(&DAMAGE);
    let mut guide = Guide {
        random,
        lookups,
        record,
        damage,
    };
    let mut bytes = Vec::new();
    for _ in 0..pieces {
        let piece = guide.next_piece();
        guide.record.load(scratch, piece.iter().copied());
        bytes.extend(piece);
        if matches!(guide.record.phase, Phase::Stopped(_)) && guide.random.one_in(4) {
            break;
        }
    }
    if random.one_in(4) {
        spoil(random, &mut bytes);
    }
    bytes
}

impl Guide<'_> {
    fn next_piece(&mut self) -> Vec<u8> {
        let word = match self.record.phase {
            Phase::Hunting => return self.before_sync(),
            Phase::Stopped(_) => self.random.next_u32(),
            Phase::Header(open) => self.header(open),
            Phase::Data {
                register: register::FDRI,
                left: left @ 2..,
            } => return self.frame_data(left),
            Phase::Data { register, .. } => self.data_word(register),
            Phase::Crc => self.data_word(register::CRC),
        };
        let word = if self.is_careless() {
            self.damaged(word)
        } else {
            word
        };
        // The record may start within a word.
        word.to_be_bytes()[self.record.bytes.len()..].to_vec()
    }

    /// Words of frames, any of which will do, up to the packet's last.
    fn frame_data(&mut self, left: u32) -> Vec<u8> {
        let most = left.min(self.record.part().frame_words());
        let words = 1 + self.random.below(most - 1);
        let bytes = 4 * words as usize - self.record.bytes.len();
        self.random.bytes(bytes)
    }

    /// Whether the next choice is a bad one; headers are few, so bad ones are more frequent.
    fn is_careless(&mut self) -> bool {
        let rate = match self.record.phase {
            Phase::Data { .. } => self.damage,
            _ => self.damage / 4,
        };
        rate > 0 && self.random.one_in(rate)
    }

    fn before_sync(&mut self) -> Vec<u8> {
        let sync = SYNC.to_be_bytes();
        match self.random.below(8) {
            0 => junk(self.random, 6),
            1 => sync[..self.random.place(3)].to_vec(),
            2 => sync[self.record.bytes.len()..].to_vec(),
            3 => vec![0xFF; 4],
            _ => sync.to_vec(),
        }
    }

    fn header(&mut self, open: Option<u32>) -> u32 {
        if let Some(register) = open.filter(|_| !self.random.one_in(8)) {
            return long_header(self.count(register));
        }
        match self.random.below(16) {
            0 => NO_OP | (self.random.below(0x4000) << 13),
            1 => 0,
            choice => {
                let register = self.wanted_register();
                // Bits 12 and 11 are ignored.
                let ignored = if choice == 2 { self.random.below(4) } else { 0 };
                write_header(register, self.count(register)) | (ignored << 11)
            }
        }
    }

    fn wanted_register(&mut self) -> u32 {
        let flags = self.record.flags;
        if !flags.idcode_accepted && self.random.one_in(3) {
            return register::IDCODE;
        }
        if !flags.flr_accepted && self.random.one_in(3) {
            return register::FLR;
        }
        let command = self.record.registers[register::CMD as usize];
        let accepted = flags.idcode_accepted && flags.flr_accepted;
        match self.random.pick(&WISHES) {
            register if self.is_careless() => register,
            register::FDRI if !accepted || command != command::WCFG => register::CMD,
            register::MFWR if !flags.frame_in_hand || command != command::MFWR => register::CMD,
            register => register,
        }
    }

    fn count(&mut self, register: u32) -> u32 {
        let frame_words = self.record.part().frame_words();
        match (register, self.random.below(8)) {
            _ if self.is_careless() => self.random.below(3 * frame_words),
            (_, 0) => 0,
            (register::FDRI, _) => frame_words * (1 + self.random.below(3)),
            (register::MFWR, _) => 2,
            (_, choice) => choice.saturating_sub(4).max(1),
        }
    }

    fn data_word(&mut self, register: u32) -> u32 {
        let part = self.record.part();
        match register {
            register::CRC => reference::check_word(self.record.registers[0]),
            register::FAR => self.frame_address(),
            register::CMD if self.random.one_in(8) => self.random.below(14),
            register::CMD => self.random.pick(&COMMANDS),
            register::FLR => part.frame_words() - 1,
            register::IDCODE => part.idcode,
            register::LOUT if self.random.one_in(4) => SYNC,
            _ => self.random.next_u32(),
        }
    }

    /// An address, often of the part's last frames, at times of none.
    fn frame_address(&mut self) -> u32 {
        let frames = self.record.part().frame_count();
        let number = match self.random.below(8) {
            0 => return self.random.next_u32(),
            1 | 2 => frames - 1 - self.random.below(4),
            _ => self.random.below(frames),
        };
        let (_, address) = self.lookups.frame_address(self.record.number, number);
        match self.random.below(4) {
            // Bits outside the three fields are ignored.
            0 => address | (self.random.next_u32() & 0xF800_01FF),
            _ => address,
        }
    }

    fn damaged(&mut self, word: u32) -> u32 {
        let random = &mut *self.random;
        match random.below(9) {
            0 => random.next_u32(),
            1 => word ^ (1 << random.below(32)),
            2 => word.wrapping_add(1),
            3 => write_header(random.below(16), random.below(4)),
            4 => write_header(random.below(0x4000), 1),
            // Another operation, then another type.
            5 => (word & !0x1800_0000) | (random.below(4) << 27),
            6 => (word & 0x1FFF_FFFF) | (random.below(8) << 29),
            7 => long_header(random.below(120)),
            _ => random.pick(&[
                0,
                NO_OP,
                SYNC,
                command::DESYNC,
                14,
                long_header(0),
                u32::MAX,
            ]),
        }
    }
}

fn junk(random: &mut Random, most: usize) -> Vec<u8> {
    let count = random.place(most);
    random.bytes(count)
}

/// Damages a stream without regard to its packets.
pub fn spoil(random: &mut Random, bytes: &mut Vec<u8>) {
    for _ in 0..1 + random.below(3) {
        let place = random.place(bytes.len());
        let word = place / 4 * 4;
        let rest = bytes.len() - place;
        match random.below(6) {
            0 => bytes.truncate(place),
            1 => drop(bytes.drain(place..place + rest.min(5))),
            2 => drop(bytes.splice(place..place, junk(random, 9))),
            // A word again, a word moved back by one, a bit flipped.
            3 if bytes.len() >= word + 4 => bytes.extend_from_within(word..word + 4),
            4 if bytes.len() >= word + 8 => bytes[word..word + 8].rotate_left(4),
            _ if rest > 0 => bytes[place] ^= 1 << random.below(8),
            _ => {}
        }
    }
}
