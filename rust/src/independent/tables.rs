//! The CRC by tables, as plain Rust would have it: what the benchmarks time the library against.

use std::array;

/// The strongest plain form: the register is kept bit-reflected, so that data shifts in from the
/// low end; four steps of a 256-entry table take a word's bytes, low byte first, and one step of a
/// 32-entry table takes the five address bits.
pub struct Tables {
    bytes: [u16; 256],
    addresses: [u16; 32],
}

/// The reflected register after `bits` zero bits.
fn shifted(register: u16, bits: u32) -> u16 {
    (0..bits).fold(register, |register, _| {
        (register >> 1) ^ (if register & 1 == 1 { 0xA001 } else { 0 })
    })
}

impl Tables {
    pub fn new() -> Self {
        Self {
            bytes: array::from_fn(|index| shifted(index as u16, 8)),
            addresses: array::from_fn(|index| shifted(index as u16, 5)),
        }
    }

    /// The reflected register after a word for the register address `reg`.
    // Inlined, so that a benchmark's loop over words has no calls.
    #[inline]
    pub fn feed(&self, register: u16, reg: u32, word: u32) -> u16 {
        let after_word = word.to_le_bytes().iter().fold(register, |register, byte| {
            (register >> 8) ^ self.bytes[usize::from(register as u8 ^ byte)]
        });
        let index = (u32::from(after_word) ^ reg) & 31;
        (after_word >> 5) ^ self.addresses[index as usize]
    }
}

impl Default for Tables {
    fn default() -> Self {
        Self::new()
    }
}
