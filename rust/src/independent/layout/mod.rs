//! A layout reader and a reference machine written from the scope paper (01) and the change
//! requests (02) alone, to hold the proved library against.
//!
//! A layout is read into a list of steps that borrow its frames. The machine is a list of borrowed
//! frames too: a step puts the layout's in the place of the memory's, and bytes move at the end.

mod machine;
pub mod number;
mod reader;
mod refusal;

use self::number::BadForm;
use self::reader::Reader;
use crate::independent::reference::{Part, PARTS};

pub use self::reader::Trail;
pub use self::refusal::{Cause, Field, Refusal};

/// The steps of the longest layout.
pub const MOST_STEPS: u32 = 4096;

/// The part of a desk, and the frames that the desk names, 01's seat: `count` from `first` on.
#[derive(Clone, Copy, PartialEq, Eq, Debug)]
pub struct Desk {
    pub device: u32,
    pub first: u32,
    pub count: u32,
}

impl Desk {
    /// A desk that names every frame of its part.
    pub fn whole(device: u32) -> Self {
        Self {
            device,
            first: 0,
            count: PARTS[device as usize].frame_count(),
        }
    }

    /// The frame after the last one named.
    pub fn end(self) -> u64 {
        u64::from(self.first) + u64::from(self.count)
    }

    fn owns(self, frame: u64) -> bool {
        (u64::from(self.first)..self.end()).contains(&frame)
    }
}

pub(crate) enum Step<'a> {
    /// 01's kind 1.
    FrameWrite { first: usize, frames: Vec<&'a [u8]> },
    /// 01's kind 2.
    MultiFrameWrite {
        frame: &'a [u8],
        targets: Vec<usize>,
    },
}

/// A layout that was accepted.
pub(crate) struct Layout<'a> {
    pub part: &'static Part,
    pub steps: Vec<Step<'a>>,
}

/// The part of a desk whose own numbers are good.
fn part_of(desk: Desk) -> Result<&'static Part, Refusal> {
    let refused = |cause| Refusal { cause, offset: 0 };
    let part = PARTS.get(desk.device as usize);
    let part = part.ok_or(refused(Cause::UnknownDevice))?;
    if desk.end() > u64::from(part.frame_count()) {
        return Err(refused(Cause::RangeOutsidePart));
    }
    Ok(part)
}

pub(crate) fn read(desk: Desk, layout: &[u8]) -> Result<Layout<'_>, Refusal> {
    let part = part_of(desk)?;
    let steps = Reader::new(desk, part, layout, 0).steps()?;
    Ok(Layout { part, steps })
}

/// How far a layout is read.
pub fn trail(desk: Desk, layout: &[u8]) -> Trail {
    let Ok(part) = part_of(desk) else {
        return Trail::default();
    };
    let mut reader = Reader::new(desk, part, layout, 0);
    // Where it ends is asked, not why.
    let _ = reader.steps();
    reader.into_trail()
}

/// The offset after the step that begins at an offset; the desk's part is one.
pub fn step_end(desk: Desk, layout: &[u8], at: usize) -> Result<u64, Refusal> {
    if at > layout.len() {
        return Err(Refusal {
            cause: Cause::BadNumber(Field::Kind, BadForm::CutShort),
            offset: at,
        });
    }
    let mut reader = Reader::new(desk, &PARTS[desk.device as usize], layout, at);
    reader.step()?;
    Ok(reader.offset() as u64)
}

/// The length of the layout's stream in bytes.
pub fn check(desk: Desk, layout: &[u8]) -> Result<u64, Refusal> {
    Ok(read(desk, layout)?.stream_bytes())
}

/// Does the layout's steps on a memory; the length of its stream in bytes.
pub fn apply(desk: Desk, layout: &[u8], memory: &mut [u8]) -> Result<u64, Refusal> {
    let layout = read(desk, layout)?;
    layout.run(memory)?;
    Ok(layout.stream_bytes())
}

/// The code and its value, as the C interface has them.
pub fn answer(result: Result<u64, Refusal>) -> (u32, u64) {
    match result {
        Ok(length) => (0, length),
        Err(refusal) => (refusal.cause.number(), refusal.offset as u64),
    }
}
