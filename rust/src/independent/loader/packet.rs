//! Headers of packets, and the stops.

use crate::independent::names::register;

/// The paper's stops at their numbers.
#[derive(Clone, Copy, PartialEq, Eq, Debug)]
pub enum Stop {
    Header = 1,
    Register,
    Read,
    Idcode,
    FrameLength,
    NotReady,
    Count,
    Check,
    NoFrame,
    Command,
}

/// What a header asks for.
pub enum Packet {
    Nothing,
    /// A type 1 write of count 0, which a type 2 header may follow.
    Open(u32),
    Write {
        register: u32,
        count: u32,
    },
}

pub fn is_writable(register: u32) -> bool {
    register::WRITABLE.contains(&register)
}

/// Reads a header as far as stops 1, 3 and 2 go; `open` is the register that a type 2 would use.
pub fn parse(header: u32, open: Option<u32>) -> Result<Packet, Stop> {
    let register = (header >> 13) & 0x3FFF;
    let count = header & 0x7FF;
    match (header >> 29, (header >> 27) & 3, open) {
        (0, 0, _) if header == 0 => Ok(Packet::Nothing),
        (1, 0, _) if count == 0 => Ok(Packet::Nothing),
        (1, 1, _) | (2, 1, Some(_)) => Err(Stop::Read),
        (1, 2, _) if !is_writable(register) => Err(Stop::Register),
        (1, 2, _) if count == 0 => Ok(Packet::Open(register)),
        (1, 2, _) => Ok(Packet::Write { register, count }),
        (2, 2, Some(register)) => Ok(match header & 0x07FF_FFFF {
            0 => Packet::Nothing,
            count => Packet::Write { register, count },
        }),
        _ => Err(Stop::Header),
    }
}
