//! The words for the papers' numbers: parts, registers, commands, stops, refusals, columns.
//! What a number means to the part is the library's; this module only names it.

/// The parts at their device numbers.
pub const PARTS: [&str; 8] = [
    "XC3S50", "XC3S200", "XC3S400", "XC3S1000", "XC3S1500", "XC3S2000", "XC3S4000", "XC3S5000",
];

/// Addresses of registers that are asked for by name.
pub mod register {
    pub const CRC: u32 = 0;
    pub const FAR: u32 = 1;
    pub const FDRI: u32 = 2;
    pub const CMD: u32 = 4;
    pub const CTL: u32 = 5;
    pub const MASK: u32 = 6;
    pub const LOUT: u32 = 8;
    pub const COR: u32 = 9;
    pub const MFWR: u32 = 10;
    pub const FLR: u32 = 11;
    pub const IDCODE: u32 = 14;
}

/// Commands that are asked for by name.
pub mod command {
    pub const NULL: u32 = 0;
    pub const WCFG: u32 = 1;
    pub const MFWR: u32 = 2;
    pub const RCFG: u32 = 4;
    pub const RCRC: u32 = 7;
    pub const DESYNC: u32 = 13;
}

/// Refusals that are asked for by name.
pub mod refusal {
    pub const OUTSIDE_PART: u32 = 34;
    pub const OUTSIDE_RANGE: u32 = 35;
    pub const NOT_RISING: u32 = 45;
}

/// The most steps of a layout, which the library judges.
pub const MOST_STEPS: u32 = 4096;

/// The registers at their addresses (001, Table 1).
const REGISTERS: [&str; 15] = [
    "CRC", "FAR", "FDRI", "FDRO", "CMD", "CTL", "MASK", "STAT", "LOUT", "COR", "MFWR", "FLR",
    "reserved", "reserved", "IDCODE",
];

/// The commands at their codes, and what they do (001, Table 2).
const COMMANDS: [(&str, &str); 14] = [
    ("NULL", "no operation"),
    ("WCFG", "frame data may be written"),
    ("MFWR", "one frame may be written to many places"),
    ("LFRM", "last frame: releases GHIGH on the whole part"),
    ("RCFG", "frame data may be read"),
    ("START", "begins the startup of the whole part"),
    ("RCAP", "resets the capture of the whole part"),
    ("RCRC", "the CRC register is cleared"),
    ("AGHIGH", "asserts GHIGH on the whole part"),
    (
        "SWITCH",
        "changes the configuration clock of the whole part",
    ),
    (
        "GRESTORE",
        "sets or resets every flip-flop of the whole part",
    ),
    ("SHUTDOWN", "begins the shutdown of the whole part"),
    ("GCAPTURE", "captures the state of the whole part"),
    ("DESYNC", "the part waits for sync again"),
];

/// A number of document 01 or 02 or of the C interface, and its meaning.
pub struct Number {
    pub number: u32,
    pub kind: Kind,
    pub meaning: &'static str,
}

#[derive(Clone, Copy, PartialEq, Eq)]
pub enum Kind {
    Done,
    Stop,
    Refusal,
}

impl Kind {
    pub fn name(self) -> &'static str {
        match self {
            Self::Done => "done",
            Self::Stop => "stop",
            Self::Refusal => "refusal",
        }
    }
}

const fn stop(number: u32, meaning: &'static str) -> Number {
    Number {
        number,
        kind: Kind::Stop,
        meaning,
    }
}

const fn refusal(number: u32, meaning: &'static str) -> Number {
    Number {
        number,
        kind: Kind::Refusal,
        meaning,
    }
}

/// 01, "Stops and refusals"; from 41 on 02, W2; 24 is the C interface's own.
pub const NUMBERS: [Number; 28] = [
    Number {
        number: 0,
        kind: Kind::Done,
        meaning: "done: nothing stopped, nothing refused",
    },
    stop(1, "packet header of no allowed kind"),
    stop(2, "register unknown, or written though it cannot be"),
    stop(3, "read operation"),
    stop(4, "IDCODE is not the part's"),
    stop(5, "frame length (FLR) is not the part's"),
    stop(
        6,
        "frame data before IDCODE and FLR, without its command, or MFWR with no frame loaded",
    ),
    stop(7, "word count is not whole frames (FDRI) or not two (MFWR)"),
    stop(8, "CRC check failed"),
    stop(9, "a frame to store and no frame is current"),
    stop(10, "unknown command"),
    refusal(21, "unknown device number"),
    refusal(22, "device record is not consistent"),
    refusal(23, "memory is not as long as the part's"),
    refusal(24, "the device does not wait for sync"),
    refusal(32, "layout edition is not 1"),
    refusal(33, "the layout's device number is not the part's"),
    refusal(34, "frame outside the part"),
    refusal(35, "frame outside the range that the desk names"),
    refusal(36, "output shorter than the stream"),
    refusal(37, "range past the part's last frame"),
    refusal(41, "badly formed number in the layout"),
    refusal(42, "bytes missing from the layout"),
    refusal(43, "step of a kind that does not exist"),
    refusal(44, "step with a count of zero"),
    refusal(45, "step whose targets do not rise"),
    refusal(46, "too many steps"),
    refusal(47, "bytes after the last step"),
];

pub fn number(number: u32) -> Option<&'static Number> {
    NUMBERS.iter().find(|known| known.number == number)
}

/// The meaning of a number that the library answered.
pub fn meaning(code: u32) -> &'static str {
    number(code).map_or("unknown number", |known| known.meaning)
}

pub fn register_name(address: u32) -> &'static str {
    let name = REGISTERS.get(address as usize);
    name.copied().unwrap_or("unknown register")
}

/// The name and the meaning of a command.
pub fn command_words(code: u32) -> (&'static str, &'static str) {
    let words = COMMANDS.get(code as usize);
    words.copied().unwrap_or(("unknown", "no such command"))
}

/// Commands that touch the whole part and not the frames alone.
pub fn acts_on_whole_part(code: u32) -> bool {
    use command::{DESYNC, MFWR, NULL, RCFG, RCRC, WCFG};
    ![NULL, RCRC, WCFG, MFWR, RCFG, DESYNC].contains(&code)
}

/// Registers that every word changes the whole part through.
pub fn is_of_whole_part(register: u32) -> bool {
    use register::{COR, CTL, LOUT, MASK};
    [CTL, MASK, COR, LOUT].contains(&register)
}

/// Whether a text is a number in decimal digits alone, of any length.
pub fn is_decimal(text: &str) -> bool {
    !text.is_empty() && text.bytes().all(|byte| byte.is_ascii_digit())
}

/// A number in decimal digits alone.
pub fn decimal(text: &str) -> Option<u32> {
    text.parse().ok().filter(|_| is_decimal(text))
}

/// A count with its noun: 1 frame, 2 frames.
pub fn counted(count: u64, noun: &str) -> String {
    match count {
        1 => format!("1 {noun}"),
        _ => format!("{count} {noun}s"),
    }
}

/// Frames from a first one on: frame 5, frames 5 to 7.
pub fn frame_run(first: u32, count: u32) -> String {
    let last = (u64::from(first) + u64::from(count)).saturating_sub(1);
    match count {
        0 => "no frames".to_string(),
        1 => format!("frame {first}"),
        _ => format!("frames {first} to {last}"),
    }
}

/// Bytes as they are shown: 01 7F.
pub fn hexadecimal(bytes: &[u8]) -> String {
    let bytes: Vec<String> = bytes.iter().map(|byte| format!("{byte:02X}")).collect();
    bytes.join(" ")
}

/// A word of the user's as it is told: one without letters would not be seen.
pub fn seen(word: &str) -> &str {
    match word.is_empty() {
        true => "''",
        false => word,
    }
}

/// Stands for a character that cannot be shown.
const UNSHOWN: char = '\u{FFFD}';

/// The text without what moves a terminal's cursor, turns the reading direction or is no XML.
pub fn plain(text: &str) -> String {
    let is_unfit = |letter: char| {
        letter.is_control()
            || matches!(
                letter,
                '\u{061C}' | '\u{200E}' | '\u{200F}' | '\u{202A}'..='\u{202E}'
            )
            || matches!(letter, '\u{2066}'..='\u{2069}' | '\u{FFFE}' | '\u{FFFF}')
    };
    text.replace(is_unfit, &UNSHOWN.to_string())
}
