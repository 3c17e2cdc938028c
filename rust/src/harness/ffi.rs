//! The proved library, asked by the tests: a desk stands in place of its numbers.

use crate::independent::layout::Desk;
use seamwillow_library as library;

pub use library::read_number;
pub use library::{address_fields, crc, frame_address, frame_number, load, part, power_on};
pub use library::{AddressFields, Figures, FrameRange};

fn range(desk: Desk) -> FrameRange {
    FrameRange {
        first: desk.first,
        count: desk.count,
    }
}

/// Judges a layout; the code and its value.
pub fn check(desk: Desk, layout: &[u8]) -> (u32, u64) {
    library::check(desk.device, range(desk), layout)
}

/// Judges the step at an offset of a layout; the code and its offset.
pub fn read_step(desk: Desk, layout: &[u8], at: usize) -> (u32, u64) {
    library::read_step(desk.device, range(desk), layout, at)
}

/// Does a layout's steps on a memory; the code and its value.
pub fn apply(desk: Desk, layout: &[u8], memory: &mut [u8]) -> (u32, u64) {
    library::apply(desk.device, range(desk), layout, memory)
}

/// Writes a layout's stream to the output's first bytes; the code and its value.
pub fn compile(desk: Desk, layout: &[u8], output: &mut [u8]) -> (u32, u64) {
    library::compile(desk.device, range(desk), layout, output)
}

/// Compiles a layout for the record's own device and loads the stream; the code and its value.
pub fn reconfigure(
    record: &mut [u8],
    memory: &mut [u8],
    [first, count]: [u32; 2],
    layout: &[u8],
    output: &mut [u8],
) -> (u32, u64) {
    let range = FrameRange { first, count };
    library::reconfigure(record, memory, range, layout, output)
}
