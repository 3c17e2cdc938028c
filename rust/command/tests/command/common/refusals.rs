//! How `build` and `layout` must tell a refused layout, from what the independent reader says of it.

use seamwillow_tests::independent::layout::number::{self, BadForm};
use seamwillow_tests::independent::layout::{
    trail, Cause, Desk, Field, Refusal, Trail, MOST_STEPS,
};
use seamwillow_tests::independent::reference::{Part, PARTS};

/// As many bytes are shown before the offset, and from it on.
const SHOWN: usize = 6;
const END: &str = "the end of the file";

/// A refused layout, with how far it was read.
struct Refused<'a> {
    desk: Desk,
    part: &'static Part,
    layout: &'a [u8],
    refusal: Refusal,
    trail: Trail,
}

/// The lines after the first: what was expected in which step and what stands there, and the bytes
/// around the offset. The desk's own numbers are good.
pub fn lines(desk: Desk, layout: &[u8], refusal: Refusal) -> String {
    let refused = Refused {
        desk,
        part: &PARTS[desk.device as usize],
        layout,
        refusal,
        trail: trail(desk, layout),
    };
    let (place, expected, found) = (refused.place(), refused.expected(), refused.found());
    let around = around(layout, refusal.offset);
    format!("  {place}: expected {expected}; found {found}\n  {around}\n")
}

fn around(layout: &[u8], offset: usize) -> String {
    let start = offset.max(SHOWN) - SHOWN;
    let mut text = format!("bytes from offset {start}:");
    for byte in &layout[start..offset] {
        text += &format!(" {byte:02X}");
    }
    text += " >>";
    for byte in layout[offset..].iter().take(SHOWN) {
        text += &format!(" {byte:02X}");
    }
    if offset == layout.len() {
        text += " end of file";
    }
    text
}

/// Frames from one to another, in words.
fn frames(first: u64, end: u64) -> String {
    match end - first {
        0 => "no frames".to_string(),
        1 => format!("frame {first}"),
        _ => format!("frames {first} to {}", end - 1),
    }
}

fn bytes(count: usize) -> String {
    format!("{count} byte{}", if count == 1 { "" } else { "s" })
}

impl Refused<'_> {
    fn place(&self) -> String {
        let Trail { step, steps, .. } = self.trail;
        match (self.refusal.cause, steps) {
            (Cause::BytesAfterEnd, _) => "after the last step".to_string(),
            (_, None) => "before the first step".to_string(),
            (_, Some(steps)) => format!("in step {step} of {steps}"),
        }
    }

    /// The values of a field in the step, in their order.
    fn values(&self, field: Field) -> Vec<u64> {
        let numbers = self.trail.numbers.iter();
        let values = numbers.filter(|(it, _)| *it == field);
        values.map(|&(_, value)| value).collect()
    }

    fn value(&self, field: Field) -> u64 {
        self.values(field)[0]
    }

    fn frame_count(&self) -> u64 {
        u64::from(self.part.frame_count())
    }

    fn field(&self, field: Field) -> String {
        match field {
            Field::Edition => "the edition, 1".to_string(),
            Field::Device => {
                let (name, device) = (self.part.name, self.desk.device);
                format!("the device number of the {name}, {device}")
            }
            Field::StepCount => format!("the step count, at most {MOST_STEPS}"),
            Field::Kind => "its kind, 1 or 2".to_string(),
            Field::FirstFrame => "its first frame".to_string(),
            Field::FrameCount => "its count of frames, at least 1".to_string(),
            Field::TargetCount => format!("its count of targets, 1 to {}", self.frame_count()),
            Field::Target => self.target(self.values(Field::Target).len() + 1),
        }
    }

    fn target(&self, number: usize) -> String {
        format!("target {number} of {}", self.value(Field::TargetCount))
    }

    /// The target that was read last.
    fn last_target(&self) -> String {
        self.target(self.values(Field::Target).len())
    }

    fn in_part(&self) -> String {
        let frames = frames(0, self.frame_count());
        format!("that the {} has, {frames}", self.part.name)
    }

    fn in_range(&self) -> String {
        let frames = frames(self.desk.first.into(), self.desk.end());
        format!("that the desk names, {frames}")
    }

    fn expected(&self) -> String {
        let frame_bytes = self.part.frame_bytes();
        match self.refusal.cause {
            Cause::BadNumber(field, _) => self.field(field),
            Cause::OtherEdition => self.field(Field::Edition),
            Cause::OtherDevice => self.field(Field::Device),
            Cause::TooManySteps => self.field(Field::StepCount),
            Cause::UnknownKind => self.field(Field::Kind),
            Cause::NoFrames => self.field(Field::FrameCount),
            Cause::NoTargets | Cause::TooManyTargets => self.field(Field::TargetCount),
            Cause::FramesOutsidePart => format!("frames {}", self.in_part()),
            Cause::FramesOutsideRange => format!("frames {}", self.in_range()),
            Cause::FramesMissing => match self.value(Field::FrameCount) {
                1 => format!("1 frame of data, {frame_bytes} bytes"),
                count => {
                    let bytes = count * frame_bytes as u64;
                    format!("{count} frames of data, {bytes} bytes")
                }
            },
            Cause::FrameMissing => format!("1 frame of data, {frame_bytes} bytes"),
            Cause::TargetNotRising => {
                let targets = self.values(Field::Target);
                let before = targets[targets.len() - 2];
                format!("{}, above {before}", self.last_target())
            }
            Cause::TargetOutsidePart => {
                format!("{}, a frame {}", self.last_target(), self.in_part())
            }
            Cause::TargetOutsideRange => {
                format!("{}, a frame {}", self.last_target(), self.in_range())
            }
            Cause::BytesAfterEnd => END.to_string(),
            cause => panic!("{cause:?} is not the layout's"),
        }
    }

    fn found(&self) -> String {
        let rest = &self.layout[self.refusal.offset..];
        match self.refusal.cause {
            Cause::BadNumber(_, BadForm::CutShort) if rest.is_empty() => END.to_string(),
            Cause::BadNumber(_, BadForm::CutShort) => format!("{}, then {END}", hex(rest)),
            Cause::BadNumber(..) => {
                let most = u32::MAX;
                let bytes = hex(&rest[..bad_length(rest)]);
                format!("{bytes}, not the shortest form of a number up to {most}")
            }
            Cause::FramesOutsidePart | Cause::FramesOutsideRange => {
                let first = self.value(Field::FirstFrame);
                frames(first, first + self.value(Field::FrameCount))
            }
            Cause::FramesMissing | Cause::FrameMissing => {
                let found = self.layout.len() - self.trail.end;
                format!("{}, then {END}", bytes(found))
            }
            Cause::BytesAfterEnd => bytes(rest.len()),
            _ => {
                let last = self.trail.numbers.last();
                last.map(|(_, value)| value.to_string())
                    .expect("a number was read")
            }
        }
    }
}

fn hex(bytes: &[u8]) -> String {
    let text: String = bytes.iter().map(|byte| format!("{byte:02X} ")).collect();
    text.trim_end().to_string()
}

/// The bytes after which a number is known to be in a bad form.
fn bad_length(bytes: &[u8]) -> usize {
    let is_bad = |length: &usize| {
        let read = number::read(&bytes[..*length]);
        matches!(read, Err(BadForm::TooLarge | BadForm::NotShortest))
    };
    (1..=bytes.len()).find(is_bad).expect("it is in a bad form")
}
