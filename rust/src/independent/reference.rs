//! An implementation written from the scope paper (01) alone, to hold the proved library against.
//!
//! A part's frames are listed one by one in the paper's order and looked up in that list; the CRC
//! register is shifted a bit at a time, as document 001 draws it.

use std::collections::HashMap;
use std::iter;
use std::sync::LazyLock;

/// A lookup of a device number above 7.
const NO_DEVICE: u32 = 21;
/// A frame number outside the part.
const NO_SUCH_FRAME: u32 = 34;
/// The frame number of an address that names no frame.
const NONE: u32 = 0xFFFF_FFFF;

/// A row of the paper's table.
pub struct Part {
    pub name: &'static str,
    pub idcode: u32,
    pub rows: u32,
    pub columns: u32,
    pub ram_columns: u32,
}

const fn part(name: &'static str, idcode: u32, [rows, columns, ram_columns]: [u32; 3]) -> Part {
    Part {
        name,
        idcode,
        rows,
        columns,
        ram_columns,
    }
}

/// The eight parts at their device numbers.
pub const PARTS: [Part; 8] = [
    part("XC3S50", 0x0140_D093, [16, 12, 1]),
    part("XC3S200", 0x0141_4093, [24, 20, 2]),
    part("XC3S400", 0x0141_C093, [32, 28, 2]),
    part("XC3S1000", 0x1142_8093, [48, 40, 2]),
    part("XC3S1500", 0x0143_4093, [64, 52, 2]),
    part("XC3S2000", 0x0144_0093, [80, 64, 2]),
    part("XC3S4000", 0x0144_8093, [96, 72, 4]),
    part("XC3S5000", 0x0145_0093, [104, 80, 4]),
];

impl Part {
    /// L, the words of a frame.
    pub fn frame_words(&self) -> u32 {
        2 * self.rows + 5
    }

    /// F, the frames of the part.
    pub fn frame_count(&self) -> u32 {
        45 + 19 * self.columns + 95 * self.ram_columns
    }

    pub fn frame_bytes(&self) -> usize {
        4 * self.frame_words() as usize
    }

    /// The bytes of the part's frame memory.
    pub fn memory_bytes(&self) -> usize {
        self.frame_bytes() * self.frame_count() as usize
    }

    /// How many minors each major has, for each block.
    fn minors(&self) -> [Vec<u32>; 3] {
        let ram_columns = self.ram_columns as usize;
        let clbs = iter::repeat_n(19, self.columns as usize + 2);
        let block0 = [3, 2].into_iter().chain(clbs).chain([2]).collect();
        [block0, vec![76; ram_columns], vec![19; ram_columns]]
    }

    /// Every frame of the part, by block, then major, then minor.
    fn frames(&self) -> Vec<Frame> {
        let mut frames = Vec::new();
        for (block, majors) in (0..).zip(self.minors()) {
            for (major, minors) in (0..).zip(majors) {
                frames.extend((0..minors).map(|minor| Frame {
                    block,
                    major,
                    minor,
                }));
            }
        }
        frames
    }
}

#[derive(Clone, Copy, PartialEq, Eq, Hash)]
struct Frame {
    block: u32,
    major: u32,
    minor: u32,
}

impl Frame {
    fn from_address(address: u32) -> Self {
        Self {
            block: (address >> 25) & 0x3,
            major: (address >> 17) & 0xFF,
            minor: (address >> 9) & 0xFF,
        }
    }

    fn address(self) -> u32 {
        (self.block << 25) | (self.major << 17) | (self.minor << 9)
    }
}

/// Block, major and minor of an address.
pub fn address_fields(address: u32) -> [u32; 3] {
    let Frame {
        block,
        major,
        minor,
    } = Frame::from_address(address);
    [block, major, minor]
}

/// The frames of one part, both ways round.
struct FrameList {
    frames: Vec<Frame>,
    numbers: HashMap<Frame, u32>,
}

/// The frame lookups of all eight parts, answering as the C interface does.
pub struct Lookups {
    lists: Vec<FrameList>,
}

impl Lookups {
    pub fn new() -> Self {
        let lists = PARTS.iter().map(|part| {
            let frames = part.frames();
            let numbers = frames.iter().copied().zip(0..).collect();
            FrameList { frames, numbers }
        });
        Self {
            lists: lists.collect(),
        }
    }

    /// The frames that were listed for a part, to hold against the paper's count.
    pub fn listed(&self, device: usize) -> usize {
        self.lists[device].frames.len()
    }

    /// The code and the frame address.
    pub fn frame_address(&self, device: u32, number: u32) -> (u32, u32) {
        let Some(list) = self.lists.get(device as usize) else {
            return (NO_DEVICE, 0);
        };
        match list.frames.get(number as usize) {
            Some(frame) => (0, frame.address()),
            None => (NO_SUCH_FRAME, 0),
        }
    }

    /// The code and the frame number.
    pub fn frame_number(&self, device: u32, address: u32) -> (u32, u32) {
        let Some(list) = self.lists.get(device as usize) else {
            return (NO_DEVICE, NONE);
        };
        let frame = Frame::from_address(address);
        (0, list.numbers.get(&frame).copied().unwrap_or(NONE))
    }
}

impl Default for Lookups {
    fn default() -> Self {
        Self::new()
    }
}

/// Listed once, for whatever looks up a frame at a time.
pub static LOOKUPS: LazyLock<Lookups> = LazyLock::new(Lookups::new);

/// The register bits that the input is added to: those of X^15, X^2 and 1.
const TAPS: u16 = 1 << 15 | 1 << 2 | 1;

/// The bit that leaves the CRC register at the next shift.
fn top_bit(register: u16) -> u16 {
    register >> 15
}

/// The CRC register after one bit of data.
fn shift_in(register: u16, data: u16) -> u16 {
    (register << 1) ^ (TAPS * (data ^ top_bit(register)))
}

/// The CRC register after `word` is fed for the register address `reg`, both bit 0 first.
pub fn crc(crc: u32, reg: u32, word: u32) -> u32 {
    let word_bits = (0..32).map(|bit| (word >> bit) & 1);
    let address_bits = (0..5).map(|bit| (reg >> bit) & 1);
    let bits = word_bits.chain(address_bits);
    u32::from(bits.fold(crc as u16, |register, bit| shift_in(register, bit as u16)))
}

/// The word, upper half zero, that makes the register zero when it is written to CRC.
pub fn check_word(crc: u32) -> u32 {
    let mut register = crc as u16;
    let mut word = 0;
    for bit in 0..16 {
        // Data equal to the leaving bit shifts in a zero, and sixteen of those leave nothing.
        let data = top_bit(register);
        register = shift_in(register, data);
        word |= u32::from(data) << bit;
    }
    word
}
