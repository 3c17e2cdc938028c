//! `layout`: a layout's steps in words, read off its stream.

use crate::arguments::Arguments;
use crate::compiled;
use crate::failure::Failure;
use crate::input::Input;
use crate::part::Part;
use crate::refusal::Wanted;
use crate::runs::FrameSet;
use crate::walk::{Step, Walk};
use crate::words::{command, counted, register};
use seamwillow_library as library;
use std::fmt::Write;

pub fn run(arguments: &Arguments) -> Result<(), Failure> {
    let file = arguments.operand("LAYOUT")?;
    let place = arguments.place()?;
    let layout = Input::read_all(file)?;
    let of_layout = || part_of(&layout.bytes);
    let Some(part) = place.part.or_else(of_layout) else {
        return Err(Failure::usage("which part: name it with --desk or --part"));
    };
    place.judge_range(part, None)?;
    let wanted = Wanted {
        part,
        range: place.range.map_or(part.whole(), |range| range.frames),
        is_named: place.part.is_some(),
    };
    let stream = compiled::stream(wanted, &layout)?;
    arguments.say(&text(&layout.name, part, &stream))
}

/// The part that accepts the layout, or else the one that reads furthest into it.
fn part_of(layout: &[u8]) -> Option<Part> {
    let judged = |part: Part| match library::check(part.device, part.whole(), layout) {
        (0, _) => (u64::MAX, part),
        (_, offset) => (offset, part),
    };
    // Of equals the last is taken, so the first part comes last.
    let parts: Vec<Part> = Part::all().collect();
    let furthest = parts
        .into_iter()
        .rev()
        .map(judged)
        .max_by_key(|(offset, _)| *offset);
    furthest.map(|(_, part)| part)
}

/// A step of the layout, as the stream does it.
#[derive(Default)]
struct LayoutStep {
    frames: FrameSet,
    is_multiple: bool,
}

/// Each step's packets begin with WCFG.
fn steps(part: Part, stream: &[u8]) -> Vec<LayoutStep> {
    let mut steps: Vec<LayoutStep> = Vec::new();
    for step in Walk::new(part, stream) {
        if begins_step(&step) {
            steps.push(LayoutStep::default());
        }
        if let Some(last) = steps.last_mut() {
            last.is_multiple |= step.register() == Some(register::MFWR);
            last.frames.extend(&step.stored);
        }
    }
    steps
}

fn begins_step(step: &Step) -> bool {
    step.register() == Some(register::CMD) && step.after.register(register::CMD) == command::WCFG
}

fn text(name: &str, part: Part, stream: &[u8]) -> String {
    let steps = steps(part, stream);
    let (count, bytes) = (
        counted(steps.len() as u64, "step"),
        counted(stream.len() as u64, "byte"),
    );
    let mut text = format!(
        "{name}: a layout for the {}, {count}; its stream has {bytes}\n",
        part.name()
    );
    for (number, step) in (1..).zip(&steps) {
        let (frames, data) = (&step.frames, counted(step.frames.len() as u64, "frame"));
        let words = match step.is_multiple {
            true => format!("one frame of data to {data}: {frames}"),
            false => format!("{data} of data to {frames}"),
        };
        let _ = writeln!(text, "  step {number}: {words}");
    }
    text
}
