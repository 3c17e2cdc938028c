//! The numbers of registers and commands (the scope paper, 01) and of a record's image.

pub const SYNC: u32 = 0xAA99_5566;

pub mod register {
    pub const CRC: u32 = 0;
    pub const FAR: u32 = 1;
    pub const FDRI: u32 = 2;
    pub const FDRO: u32 = 3;
    pub const CMD: u32 = 4;
    pub const CTL: u32 = 5;
    pub const MASK: u32 = 6;
    pub const STAT: u32 = 7;
    pub const LOUT: u32 = 8;
    pub const COR: u32 = 9;
    pub const MFWR: u32 = 10;
    pub const FLR: u32 = 11;
    pub const IDCODE: u32 = 14;

    /// Those that can be written.
    pub const WRITABLE: [u32; 11] = [CRC, FAR, FDRI, CMD, CTL, MASK, LOUT, COR, MFWR, FLR, IDCODE];
}

pub mod command {
    pub const WCFG: u32 = 1;
    pub const MFWR: u32 = 2;
    pub const LFRM: u32 = 3;
    pub const START: u32 = 5;
    pub const RCRC: u32 = 7;
    pub const AGHIGH: u32 = 8;
    pub const SWITCH: u32 = 9;
    pub const GRESTORE: u32 = 10;
    pub const DESYNC: u32 = 13;
}

/// Words of a record's image.
pub mod field {
    pub const DEVICE: usize = 0;
    pub const PHASE: usize = 1;
    pub const ARGUMENT: usize = 2;
    /// How many bytes are remembered.
    pub const BYTE_COUNT: usize = 5;
    pub const CURRENT: usize = 7;
    pub const FLAGS: usize = 8;
    pub const CRC: usize = 9;

    pub const fn register(address: u32) -> usize {
        CRC + address as usize
    }
}

/// Phases in a record's image.
pub mod phase {
    pub const HUNTING: u32 = 0;
    pub const HEADER: u32 = 1;
    pub const DATA: u32 = 2;
    pub const CRC: u32 = 3;
    pub const STOPPED: u32 = 4;
}

/// Flags in a record's image.
pub mod flag {
    pub const IDCODE_ACCEPTED: u32 = 1;
    pub const FLR_ACCEPTED: u32 = 1 << 1;
    pub const FRAME_IN_HAND: u32 = 1 << 2;
    pub const GHIGH: u32 = 1 << 3;
    pub const START_PENDING: u32 = 1 << 4;
    pub const STARTED: u32 = 1 << 6;
}
