//! The layout reader: bytes into steps, or the refusal of the first thing that is wrong.

use super::number;
use super::refusal::{Cause, Field, Refusal};
use super::{Desk, Step, MOST_STEPS};
use crate::independent::reference::Part;

const EDITION: u64 = 1;

/// A number that was read; wide, so that the sum of two does not wrap.
#[derive(Clone, Copy)]
struct Number {
    value: u64,
    offset: usize,
}

impl Number {
    fn ensure(self, is_good: bool, cause: Cause) -> Result<(), Refusal> {
        let offset = self.offset;
        is_good.then_some(()).ok_or(Refusal { cause, offset })
    }
}

/// How far a layout was read.
#[derive(Clone, Default, Debug)]
pub struct Trail {
    /// The step count, once it was read.
    pub steps: Option<u64>,
    /// The step that was begun last, counted from 1; 0 before the first.
    pub step: u64,
    /// The numbers of that step, or those before the first step.
    pub numbers: Vec<(Field, u64)>,
    /// The offset after all that was read.
    pub end: usize,
}

pub struct Reader<'a> {
    desk: Desk,
    part: &'static Part,
    /// The whole layout's length.
    length: usize,
    /// The bytes that are still to be read.
    rest: &'a [u8],
    trail: Trail,
}

impl<'a> Reader<'a> {
    /// A reader of the layout from an offset on.
    pub fn new(desk: Desk, part: &'static Part, layout: &'a [u8], at: usize) -> Self {
        Self {
            desk,
            part,
            length: layout.len(),
            rest: &layout[at..],
            trail: Trail::default(),
        }
    }

    pub fn steps(&mut self) -> Result<Vec<Step<'a>>, Refusal> {
        let edition = self.number(Field::Edition)?;
        edition.ensure(edition.value == EDITION, Cause::OtherEdition)?;
        let device = self.number(Field::Device)?;
        let is_desks = device.value == u64::from(self.desk.device);
        device.ensure(is_desks, Cause::OtherDevice)?;
        let count = self.number(Field::StepCount)?;
        let is_allowed = count.value <= u64::from(MOST_STEPS);
        count.ensure(is_allowed, Cause::TooManySteps)?;
        self.trail.steps = Some(count.value);
        let mut steps = Vec::new();
        for _ in 0..count.value {
            steps.push(self.step()?);
        }
        if !self.rest.is_empty() {
            return Err(Refusal {
                cause: Cause::BytesAfterEnd,
                offset: self.offset(),
            });
        }
        Ok(steps)
    }

    pub fn step(&mut self) -> Result<Step<'a>, Refusal> {
        self.trail.step += 1;
        self.trail.numbers.clear();
        let kind = self.number(Field::Kind)?;
        kind.ensure(matches!(kind.value, 1 | 2), Cause::UnknownKind)?;
        match kind.value {
            1 => self.frame_write(),
            _ => self.multi_frame_write(),
        }
    }

    fn frame_write(&mut self) -> Result<Step<'a>, Refusal> {
        let first = self.number(Field::FirstFrame)?;
        let count = self.number(Field::FrameCount)?;
        count.ensure(count.value > 0, Cause::NoFrames)?;
        let end = first.value + count.value;
        first.ensure(end <= self.part_frames(), Cause::FramesOutsidePart)?;
        let is_owned = (first.value..end).all(|frame| self.desk.owns(frame));
        first.ensure(is_owned, Cause::FramesOutsideRange)?;
        let frames = self.frames(count.value, Cause::FramesMissing)?;
        Ok(Step::FrameWrite {
            first: first.value as usize,
            frames,
        })
    }

    fn multi_frame_write(&mut self) -> Result<Step<'a>, Refusal> {
        let count = self.number(Field::TargetCount)?;
        count.ensure(count.value > 0, Cause::NoTargets)?;
        count.ensure(count.value <= self.part_frames(), Cause::TooManyTargets)?;
        let frame = self.frames(1, Cause::FrameMissing)?[0];
        let mut targets = Vec::new();
        for _ in 0..count.value {
            let target = self.number(Field::Target)?;
            let number = target.value as usize;
            let is_rising = targets.last().is_none_or(|&last| last < number);
            target.ensure(is_rising, Cause::TargetNotRising)?;
            let is_in_part = target.value < self.part_frames();
            target.ensure(is_in_part, Cause::TargetOutsidePart)?;
            let is_owned = self.desk.owns(target.value);
            target.ensure(is_owned, Cause::TargetOutsideRange)?;
            targets.push(number);
        }
        Ok(Step::MultiFrameWrite { frame, targets })
    }

    pub fn offset(&self) -> usize {
        self.length - self.rest.len()
    }

    /// How far it was read.
    pub fn into_trail(self) -> Trail {
        let end = self.offset();
        Trail { end, ..self.trail }
    }

    fn part_frames(&self) -> u64 {
        u64::from(self.part.frame_count())
    }

    fn number(&mut self, field: Field) -> Result<Number, Refusal> {
        let offset = self.offset();
        let (value, bytes) = number::read(self.rest).map_err(|form| Refusal {
            cause: Cause::BadNumber(field, form),
            offset,
        })?;
        self.rest = &self.rest[bytes..];
        self.trail.numbers.push((field, u64::from(value)));
        Ok(Number {
            value: u64::from(value),
            offset,
        })
    }

    /// Frames of bytes, no more of them than the part has.
    fn frames(&mut self, count: u64, missing: Cause) -> Result<Vec<&'a [u8]>, Refusal> {
        let frame_bytes = self.part.frame_bytes();
        let split = self.rest.split_at_checked(frame_bytes * count as usize);
        let (bytes, rest) = split.ok_or(Refusal {
            cause: missing,
            offset: self.length,
        })?;
        self.rest = rest;
        Ok(bytes.chunks_exact(frame_bytes).collect())
    }
}
