//! Why a layout is refused: in which step, what is expected there and what stands there.
//!
//! Its numbers and steps are read by the library; this module knows their order and names them.

use crate::part::Part;
use crate::walk::WORD;
use crate::words::{counted, frame_run, hexadecimal, refusal, MOST_STEPS};
use seamwillow_library::{self as library, FrameRange};
use std::fmt;

/// The part and the frames that a layout is read for.
#[derive(Clone, Copy)]
pub struct Wanted {
    pub part: Part,
    pub range: FrameRange,
    /// Whether the desk named the part; else it is the layout's own.
    pub is_named: bool,
}

/// A layout that is read.
pub struct Reading<'a> {
    pub wanted: Wanted,
    pub layout: &'a [u8],
}

/// A number of the layout, and the offset after it.
struct Number {
    value: u32,
    next: usize,
}

/// In which part of the layout a refusal is.
enum Place {
    Head,
    Step { number: u32, steps: u32 },
    End,
}

impl fmt::Display for Place {
    fn fmt(&self, out: &mut fmt::Formatter) -> fmt::Result {
        match self {
            Self::Head => write!(out, "before the first step"),
            Self::Step { number, steps } => write!(out, "in step {number} of {steps}"),
            Self::End => write!(out, "after the last step"),
        }
    }
}

/// What a refusal is about.
enum Item {
    Edition,
    Device,
    StepCount,
    Kind,
    FirstFrame,
    FrameCount,
    /// A step's frames, judged together.
    Frames {
        first: u32,
        count: u32,
    },
    TargetCount,
    /// So many frames of bytes, from an offset on.
    Data {
        frames: u32,
        from: usize,
    },
    /// A target, counted from 1, and the one before it.
    Target {
        number: u32,
        count: u32,
        last: Option<u32>,
    },
    End,
}

impl Wanted {
    /// The device number that the layout is to have.
    fn device(&self) -> String {
        let (name, device) = (self.part.name(), self.part.device);
        match (self.is_named, Part::all().last()) {
            (false, Some(last)) => format!("a device number, 0 to {}", last.device),
            _ => format!("the device number of the {name}, {device}"),
        }
    }
}

impl Reading<'_> {
    /// One line on a refusal with its number and its offset.
    pub fn explained(&self, code: u32, offset: usize) -> Option<String> {
        let (place, item) = self.find(offset)?;
        let (expected, found) = (self.expected(&item, code), self.found(&item, offset));
        Some(format!("{place}: expected {expected}; found {found}"))
    }

    fn number(&self, at: usize) -> Option<Number> {
        let (code, value, next) = library::read_number(self.layout, at);
        let next = usize::try_from(next).ok()?;
        (code == 0).then_some(Number { value, next })
    }

    /// What is refused at an offset: the numbers before the steps, the steps and the end are tried
    /// in their order.
    fn find(&self, offset: usize) -> Option<(Place, Item)> {
        let (mut at, mut steps) = (0, 0);
        for item in [Item::Edition, Item::Device, Item::StepCount] {
            if at == offset {
                return Some((Place::Head, item));
            }
            let read = self.number(at)?;
            (at, steps) = (read.next, read.value);
        }
        for number in 1..=steps {
            let Wanted { part, range, .. } = self.wanted;
            match library::read_step(part.device, range, self.layout, at) {
                (0, next) => at = usize::try_from(next).ok()?,
                _ => {
                    let place = Place::Step { number, steps };
                    return self.in_step(at, offset).map(|item| (place, item));
                }
            }
        }
        Some((Place::End, Item::End))
    }

    /// What is refused in the step at an offset.
    fn in_step(&self, at: usize, offset: usize) -> Option<Item> {
        if at == offset {
            return Some(Item::Kind);
        }
        let kind = self.number(at)?;
        match kind.value {
            1 => self.in_frame_write(kind.next, offset),
            _ => self.in_multi_frame_write(kind.next, offset),
        }
    }

    /// The first frame of a step of kind 1 stands at the offset.
    fn in_frame_write(&self, at: usize, offset: usize) -> Option<Item> {
        let Some(first) = self.number(at) else {
            return Some(Item::FirstFrame);
        };
        if first.next == offset {
            return Some(Item::FrameCount);
        }
        let count = self.number(first.next)?;
        Some(match at == offset {
            true => Item::Frames {
                first: first.value,
                count: count.value,
            },
            false => Item::Data {
                frames: count.value,
                from: count.next,
            },
        })
    }

    /// The count of a step of kind 2 stands at the offset.
    fn in_multi_frame_write(&self, at: usize, offset: usize) -> Option<Item> {
        if at == offset {
            return Some(Item::TargetCount);
        }
        let count = self.number(at)?;
        let (frames, from) = (1, count.next);
        let mut at = from + self.frame_bytes();
        if self.layout.len() < at {
            return Some(Item::Data { frames, from });
        }
        let (mut number, mut last) = (1, None);
        while at != offset {
            let target = self.number(at)?;
            (at, number, last) = (target.next, number + 1, Some(target.value));
        }
        let count = count.value;
        Some(Item::Target {
            number,
            count,
            last,
        })
    }

    fn frame_bytes(&self) -> usize {
        WORD * self.wanted.part.figures.frame_words as usize
    }

    fn expected(&self, item: &Item, code: u32) -> String {
        match *item {
            Item::Edition => "the edition, 1".to_string(),
            Item::Device => self.wanted.device(),
            Item::StepCount => format!("the step count, at most {MOST_STEPS}"),
            Item::Kind => "its kind, 1 or 2".to_string(),
            Item::FirstFrame => "its first frame".to_string(),
            Item::FrameCount => "its count of frames, at least 1".to_string(),
            Item::Frames { .. } => format!("frames {}", self.allowed(code)),
            Item::TargetCount => {
                let most = self.wanted.part.figures.frames;
                format!("its count of targets, 1 to {most}")
            }
            Item::Data { frames, .. } => {
                let bytes = self.frame_bytes() as u64 * u64::from(frames);
                let frames = counted(u64::from(frames), "frame");
                format!("{frames} of data, {}", counted(bytes, "byte"))
            }
            Item::Target {
                number,
                count,
                last,
            } => format!("target {number} of {count}{}", self.bounds(code, last)),
            Item::End => "the end of the file".to_string(),
        }
    }

    /// What is asked of a target after the one before it, beside its form.
    fn bounds(&self, code: u32, last: Option<u32>) -> String {
        match (code, last) {
            (refusal::NOT_RISING, Some(last)) => format!(", above {last}"),
            (refusal::OUTSIDE_PART | refusal::OUTSIDE_RANGE, _) => {
                format!(", a frame {}", self.allowed(code))
            }
            _ => String::new(),
        }
    }

    /// The frames of which one was expected.
    fn allowed(&self, code: u32) -> String {
        let words = |range: FrameRange| frame_run(range.first, range.count);
        match code {
            refusal::OUTSIDE_PART => {
                let part = self.wanted.part;
                format!("that the {} has, {}", part.name(), words(part.whole()))
            }
            _ => format!("that the desk names, {}", words(self.wanted.range)),
        }
    }

    fn found(&self, item: &Item, offset: usize) -> String {
        let bytes_from = |from: usize| self.layout.len().saturating_sub(from) as u64;
        match *item {
            Item::Frames { first, count } => frame_run(first, count),
            Item::Data { from, .. } => then_end(counted(bytes_from(from), "byte")),
            Item::End => counted(bytes_from(offset), "byte"),
            _ => self.number_found(offset),
        }
    }

    /// The number at an offset, or the bytes that are none.
    fn number_found(&self, offset: usize) -> String {
        let rest = self.layout.get(offset..).unwrap_or_default();
        let refused = |length: usize| library::read_number(&rest[..length], 0).0;
        let code = refused(rest.len());
        if code == 0 {
            let (_, value, _) = library::read_number(rest, 0);
            return value.to_string();
        }
        if rest.is_empty() {
            return "the end of the file".to_string();
        }
        // Bytes are missing from no bytes at all too.
        if refused(0) == code {
            return then_end(hexadecimal(rest));
        }
        let length = (0..rest.len()).find(|&length| refused(length) == code);
        let bytes = hexadecimal(&rest[..length.unwrap_or(rest.len())]);
        let most = u32::MAX;
        format!("{bytes}, not the shortest form of a number up to {most}")
    }
}

fn then_end(found: String) -> String {
    format!("{found}, then the end of the file")
}
