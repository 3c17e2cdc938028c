//! Streams for the XC3S50 that the hand-worked tests share.

use crate::harness::sides::{Side, State, INDEPENDENT, PROVED};
use crate::independent::names::{command, register};
use crate::independent::stream::Stream;

/// Each side is held against the paper by itself, the independent loader first.
pub const SIDES: [Side; 2] = [INDEPENDENT, PROVED];

/// L and F of the XC3S50.
pub const FRAME_WORDS: usize = 37;
pub const FRAMES: u32 = 368;
/// An address in block 3, which no part has.
pub const NO_FRAME: u32 = 0x0600_0000;
/// The addresses of frames 0, 1, 3 and 367.
pub const FRAME_0: u32 = 0x0000_0000;
pub const FRAME_1: u32 = 0x0000_0200;
pub const FRAME_3: u32 = 0x0002_0000;
pub const FRAME_367: u32 = 0x0400_2400;

/// Words of frames; frame `n` has only bytes of value `first + n`.
pub fn frames(first: u8, count: u8) -> Vec<u32> {
    (first..first + count)
        .flat_map(|value| [u32::from_be_bytes([value; 4]); FRAME_WORDS])
        .collect()
}

/// Loads into a fresh XC3S50 and asserts that all was taken.
pub fn loaded(side: &Side, stream: &Stream) -> State {
    let end = side.load(&side.powered(0), stream.bytes());
    let answer = (end.code, end.taken);
    assert_eq!(answer, (0, stream.bytes().len() as u64), "{}", side.name);
    end.state
}

/// A stream that is ready for frames at an address.
pub fn at_address(address: u32) -> Stream {
    let mut stream = Stream::ready(0);
    stream
        .command(command::WCFG)
        .write(register::FAR, &[address]);
    stream
}

/// A stream that has a frame of bytes of value 9 in hand, with command MFWR, at an address.
pub fn in_hand_at(address: u32) -> Stream {
    let mut stream = at_address(address);
    stream.frames(&frames(9, 1)).command(command::MFWR);
    stream
}
