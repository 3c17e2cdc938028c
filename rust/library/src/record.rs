//! A device record's image, word by word (docs/C-INTERFACE.md, "The record's image, edition 1").

/// The length of a record's image in bytes.
pub const RECORD_BYTES: usize = 948;

/// Words of the image.
mod field {
    pub const PHASE: usize = 1;
    pub const ARGUMENT: usize = 2;
    pub const LEFT: usize = 3;
    pub const BYTE_COUNT: usize = 5;
    pub const CURRENT: usize = 7;
    pub const FLAGS: usize = 8;
    pub const REGISTERS: usize = 9;
}

/// The current frame where there is none.
const NO_FRAME: u32 = u32::MAX;

/// What the part waits for.
#[derive(Clone, Copy, PartialEq, Eq, Debug)]
pub enum Phase {
    Hunting,
    /// With the register that a type 2 header would use.
    Header {
        open: Option<u32>,
    },
    /// `left` words are still to come for a register.
    Data {
        register: u32,
        left: u32,
    },
    Crc,
    Stopped {
        number: u32,
    },
}

/// The flags of a record.
#[derive(Clone, Copy, PartialEq, Eq, Debug)]
pub struct Flags {
    pub idcode_accepted: bool,
    pub flr_accepted: bool,
    pub buffer_valid: bool,
    pub ghigh: bool,
    pub start_pending: bool,
    pub check_passed: bool,
    pub started: bool,
}

/// A record as the library takes it and hands it back.
#[derive(Clone, PartialEq, Eq)]
pub struct Record {
    image: [u8; RECORD_BYTES],
}

impl Record {
    /// Powers a part on: the code, the fresh record and the memory.
    pub fn power_on(device: u32, memory: &mut [u8]) -> (u32, Self) {
        let mut image = [0; RECORD_BYTES];
        let code = crate::power_on(device, &mut image, memory);
        (code, Self { image })
    }

    /// Loads a piece of a stream; the code and the bytes taken.
    pub fn load(&mut self, memory: &mut [u8], stream: &[u8]) -> (u32, u64) {
        crate::load(&mut self.image, memory, stream)
    }

    fn word(&self, index: usize) -> u32 {
        let bytes = self.image[4 * index..].first_chunk();
        bytes.map_or(0, |bytes| u32::from_be_bytes(*bytes))
    }

    pub fn phase(&self) -> Phase {
        let argument = self.word(field::ARGUMENT);
        match self.word(field::PHASE) {
            0 => Phase::Hunting,
            1 => Phase::Header {
                open: argument.checked_sub(1),
            },
            2 => Phase::Data {
                register: argument,
                left: self.word(field::LEFT),
            },
            3 => Phase::Crc,
            _ => Phase::Stopped { number: argument },
        }
    }

    /// How many bytes of a partial word, or of the sync window, are held.
    pub fn bytes_held(&self) -> usize {
        self.word(field::BYTE_COUNT) as usize
    }

    pub fn current_frame(&self) -> Option<u32> {
        Some(self.word(field::CURRENT)).filter(|&frame| frame != NO_FRAME)
    }

    pub fn flags(&self) -> Flags {
        let bits = self.word(field::FLAGS);
        let is_set = |bit: u32| (bits >> bit) & 1 == 1;
        Flags {
            idcode_accepted: is_set(0),
            flr_accepted: is_set(1),
            buffer_valid: is_set(2),
            ghigh: is_set(3),
            start_pending: is_set(4),
            check_passed: is_set(5),
            started: is_set(6),
        }
    }

    /// The word that a register holds.
    pub fn register(&self, address: u32) -> u32 {
        self.word(field::REGISTERS + address as usize)
    }

    /// The record with another word in a register.
    pub fn with_register(&self, address: u32, word: u32) -> Self {
        let mut other = self.clone();
        let at = 4 * (field::REGISTERS + address as usize);
        other.image[at..at + 4].copy_from_slice(&word.to_be_bytes());
        other
    }
}
