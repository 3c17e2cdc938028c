//! Refusals of layouts by their causes, which are more than the papers' numbers, so that the tests
//! can tell what they reached.

use super::number::BadForm;

/// The numbers of a layout.
#[derive(Clone, Copy, PartialEq, Eq, PartialOrd, Ord, Debug)]
pub enum Field {
    Edition,
    Device,
    StepCount,
    Kind,
    FirstFrame,
    FrameCount,
    TargetCount,
    Target,
}

impl Field {
    pub const ALL: [Self; 8] = [
        Self::Edition,
        Self::Device,
        Self::StepCount,
        Self::Kind,
        Self::FirstFrame,
        Self::FrameCount,
        Self::TargetCount,
        Self::Target,
    ];
}

#[derive(Clone, Copy, PartialEq, Eq, PartialOrd, Ord, Debug)]
pub enum Cause {
    UnknownDevice,
    RangeOutsidePart,
    BadNumber(Field, BadForm),
    OtherEdition,
    OtherDevice,
    TooManySteps,
    UnknownKind,
    NoFrames,
    FramesOutsidePart,
    FramesOutsideRange,
    FramesMissing,
    NoTargets,
    TooManyTargets,
    FrameMissing,
    TargetNotRising,
    TargetOutsidePart,
    TargetOutsideRange,
    BytesAfterEnd,
    WrongMemory,
}

/// The numbers of 01 and, from 41 on, of 02, but for those of bytes that are no number.
const NUMBERS: [(Cause, u32); 18] = [
    (Cause::UnknownDevice, 21),
    (Cause::RangeOutsidePart, 37),
    (Cause::OtherEdition, 32),
    (Cause::OtherDevice, 33),
    (Cause::TooManySteps, 46),
    (Cause::UnknownKind, 43),
    (Cause::NoFrames, 44),
    (Cause::FramesOutsidePart, 34),
    (Cause::FramesOutsideRange, 35),
    (Cause::FramesMissing, 42),
    (Cause::NoTargets, 44),
    (Cause::TooManyTargets, 34),
    (Cause::FrameMissing, 42),
    (Cause::TargetNotRising, 45),
    (Cause::TargetOutsidePart, 34),
    (Cause::TargetOutsideRange, 35),
    (Cause::BytesAfterEnd, 47),
    (Cause::WrongMemory, 23),
];

impl Cause {
    pub fn all() -> impl Iterator<Item = Self> {
        let bad_forms = |field| BadForm::ALL.map(|form| Self::BadNumber(field, form));
        let bad_numbers = Field::ALL.into_iter().flat_map(bad_forms);
        let others = NUMBERS.into_iter().map(|(cause, _)| cause);
        others.chain(bad_numbers)
    }

    pub fn number(self) -> u32 {
        if let Self::BadNumber(_, form) = self {
            return match form {
                BadForm::TooLarge | BadForm::NotShortest => 41,
                BadForm::CutShort => 42,
            };
        }
        let mut rows = NUMBERS.into_iter();
        let row = rows.find(|&(cause, _)| cause == self);
        row.expect("the list has every other cause").1
    }
}

#[derive(Clone, Copy, PartialEq, Eq, Debug)]
pub struct Refusal {
    pub cause: Cause,
    /// 01's place.
    pub offset: usize,
}
