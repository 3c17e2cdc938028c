//! Frame memories of right and of wrong lengths.

use crate::generate::random::Random;
use crate::independent::reference::PARTS;

fn lengths() -> impl Iterator<Item = usize> {
    PARTS.iter().map(|part| part.memory_bytes())
}

/// Lengths that are not the part's: none, one off, and other parts'.
pub fn wrong_lengths(device: u32) -> Vec<usize> {
    let length = PARTS[device as usize].memory_bytes();
    let mut wrong: Vec<usize> = lengths().filter(|&other| other != length).collect();
    wrong.extend([0, 1, length - 4, length - 1, length + 1, length + 4]);
    wrong
}

/// The length of a memory for a device, rarely a wrong one.
pub fn some_length(random: &mut Random, device: u32) -> usize {
    match random.below(128) {
        0 => random.pick(&wrong_lengths(device)),
        _ => PARTS[device as usize].memory_bytes(),
    }
}

/// Random bytes, enough for a memory of any part and of any wrong length.
pub fn junk(random: &mut Random) -> Vec<u8> {
    let longest = lengths().max().expect("there are parts");
    random.bytes(longest + 4)
}
