//! A part, its frames and its columns, all asked of the library.

use crate::runs::FrameSet;
use crate::words;
use seamwillow_library::{self as library, AddressFields, Figures, FrameRange};
use std::fmt;

/// One of the eight parts.
#[derive(Clone, Copy, PartialEq, Eq, Debug)]
pub struct Part {
    pub device: u32,
    pub figures: Figures,
    /// The last major of block 0, the part's right edge.
    last_major: u32,
}

/// A word that names no part, with the library's refusal where it is a device number.
pub struct NoPart {
    pub words: String,
    pub number: Option<u32>,
}

impl NoPart {
    fn new(text: &str, number: Option<u32>) -> Self {
        let text = words::seen(text);
        let words = match number {
            Some(code) => format!("{text} is no part: {}", words::meaning(code)),
            None => format!("{text} is no part"),
        };
        Self { words, number }
    }
}

/// A frame of a part.
#[derive(Clone, Copy, PartialEq, Eq, Debug)]
pub struct Frame {
    pub number: u32,
    pub address: u32,
    pub fields: AddressFields,
    /// The name of its column.
    pub column: &'static str,
}

/// The frames of one block and major, rising.
#[derive(Clone, PartialEq, Eq, Debug)]
pub struct Column {
    pub block: u32,
    pub major: u32,
    /// 001, Table 12, with the side.
    pub name: &'static str,
    pub frames: Vec<u32>,
}

impl fmt::Display for Frame {
    fn fmt(&self, out: &mut fmt::Formatter) -> fmt::Result {
        write!(
            out,
            "frame {}: {}, {}",
            self.number,
            fields_words(*self),
            self.column
        )
    }
}

fn fields_words(frame: Frame) -> String {
    let AddressFields {
        block,
        major,
        minor,
    } = frame.fields;
    format!("block {block} major {major} minor {minor}")
}

/// From one frame of a block to another.
fn run_words(first: Frame, last: Frame) -> String {
    let (from, to) = (fields_words(first), last.fields);
    match first.fields.major == to.major {
        true => format!("{from} to {}", to.minor),
        false => format!("{from} to major {} minor {}", to.major, to.minor),
    }
}

impl Part {
    pub fn of(device: u32) -> Option<Self> {
        Self::asked(device).ok()
    }

    /// The part of a device number, or the library's refusal.
    fn asked(device: u32) -> Result<Self, u32> {
        let (code, figures) = library::part(device);
        if code != 0 {
            return Err(code);
        }
        let fields = |number| library::address_fields(library::frame_address(device, number).1);
        let mut falling = (0..figures.frames).rev().map(fields);
        let last_of_block_0 = falling.find(|it| it.block == 0);
        Ok(Self {
            device,
            figures,
            last_major: last_of_block_0.map_or(0, |fields| fields.major),
        })
    }

    pub fn all() -> impl Iterator<Item = Self> {
        (0..).map_while(Self::of)
    }

    /// The part of a name or a device number.
    pub fn named(text: &str) -> Result<Self, NoPart> {
        let is_named = |name: &&str| name.eq_ignore_ascii_case(text);
        let by_name = words::PARTS.iter().position(is_named);
        let device = by_name.map(|device| device as u32).or(words::decimal(text));
        let device = device.ok_or_else(|| NoPart::new(text, None))?;
        Self::asked(device).map_err(|code| NoPart::new(text, Some(code)))
    }

    pub fn by_idcode(idcode: u32) -> Option<Self> {
        Self::all().find(|part| part.figures.idcode == idcode)
    }

    pub fn name(&self) -> &'static str {
        let name = words::PARTS.get(self.device as usize);
        name.copied().unwrap_or("unnamed part")
    }

    /// A memory of the part with one value in every byte.
    pub fn memory(&self, byte: u8) -> Vec<u8> {
        vec![byte; self.figures.memory_bytes as usize]
    }

    pub fn whole(&self) -> FrameRange {
        FrameRange {
            first: 0,
            count: self.figures.frames,
        }
    }

    /// The number with which the library refuses a range of this part; none where it is taken.
    pub fn refuses(&self, range: FrameRange) -> Option<u32> {
        const WRONG_RANGE: u32 = 37;
        let (code, _) = library::check(self.device, range, &[]);
        (code == WRONG_RANGE).then_some(code)
    }

    /// The number's frame, or the library's refusal.
    pub fn frame(&self, number: u32) -> Result<Frame, u32> {
        match library::frame_address(self.device, number) {
            (0, address) => Ok(self.frame_of(number, address)),
            (code, _) => Err(code),
        }
    }

    /// The frame at an address, if there is one.
    pub fn frame_at(&self, address: u32) -> Option<Frame> {
        let (_, number) = library::frame_number(self.device, address);
        self.frame(number).ok()
    }

    fn frame_of(&self, number: u32, address: u32) -> Frame {
        let fields = library::address_fields(address);
        Frame {
            number,
            address,
            fields,
            column: self.column_name(fields),
        }
    }

    /// 001, Tables 12 and 13: block 0 begins with GCLK and the left edge and ends with the right.
    fn column_name(&self, fields: AddressFields) -> &'static str {
        let last = self.last_major;
        match (fields.block, fields.major) {
            (0, 0) => "GCLK",
            (0, 1) => "TERM_L",
            (0, 2) => "IOI_L",
            (0, major) if major == last => "TERM_R",
            (0, major) if major + 1 == last => "IOI_R",
            (0, _) => "CLB",
            (1, _) => "Block RAM",
            _ => "Block RAM interconnect",
        }
    }

    /// The frames in words: each run in columns of one name is told by its first and last frame.
    pub fn places(&self, frames: &FrameSet) -> Vec<String> {
        let mut places: Vec<(Frame, Frame)> = Vec::new();
        for frame in frames.iter().filter_map(|number| self.frame(number).ok()) {
            match places.last_mut() {
                Some((_, last))
                    if last.number + 1 == frame.number && last.column == frame.column =>
                {
                    *last = frame;
                }
                _ => places.push((frame, frame)),
            }
        }
        let told = |(first, last): (Frame, Frame)| {
            let (from, to, column) = (first.number, last.number, first.column);
            match first == last {
                true => first.to_string(),
                false => format!("frames {from}-{to}: {}, {column}", run_words(first, last)),
            }
        };
        places.into_iter().map(told).collect()
    }

    /// Every column, by block, then major.
    pub fn columns(&self) -> Vec<Column> {
        let mut columns: Vec<Column> = Vec::new();
        for frame in (0..self.figures.frames).filter_map(|number| self.frame(number).ok()) {
            let AddressFields { block, major, .. } = frame.fields;
            match columns.last_mut() {
                Some(column) if (column.block, column.major) == (block, major) => {
                    column.frames.push(frame.number);
                }
                _ => columns.push(Column {
                    block,
                    major,
                    name: frame.column,
                    frames: vec![frame.number],
                }),
            }
        }
        columns
    }
}
