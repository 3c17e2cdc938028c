//! Whether a stream may be loaded: what is asked, and the answers in words.

use crate::desk::{NamedRange, Place};
use crate::effects::{Effects, StreamPart, WholePartAction};
use crate::guess;
use crate::output;
use crate::part::Part;
use crate::runs::FrameSet;
use crate::walk::Walk;
use crate::words::{self, counted};
use seamwillow_library::record::Phase;

/// What a verdict without a range leaves open.
pub const NO_RANGE: &str =
    "no --seat and no --frames: whether these frames may be written was not asked";

/// One of the things that a verdict asks, and its answer in words.
#[derive(Debug)]
pub struct Question {
    pub name: &'static str,
    pub holds: bool,
    pub words: String,
}

/// Whether a stream may be loaded.
pub struct Verdict {
    /// None where neither the desk nor the stream names it.
    pub part: Option<Part>,
    pub range: Option<NamedRange>,
    pub effects: Effects,
    pub questions: Vec<Question>,
}

impl Verdict {
    /// The verdict for the part that the place names, or else for the stream's own.
    pub fn of(stream: &[u8], place: &Place) -> Self {
        let of_stream = || StreamPart::of(stream);
        let tried = place.part.map(StreamPart::given).or_else(of_stream);
        let mut walk = tried.map(|tried| Walk::new(tried.part, stream));
        let effects = match &mut walk {
            Some(walk) => Effects::of(walk),
            None => Effects::of_hunting(stream.len()),
        };
        let part = tried.filter(|it| it.is_named).map(|it| it.part);
        // Whose stream it is, where the desk's part has not taken it for its own.
        let is_others = effects.sync.is_some() && !effects.idcode_accepted;
        let other = place.part.filter(|_| is_others).and_then(|_| of_stream());
        let other = other.filter(|it| it.is_named).map(|it| it.part);
        let range = place.range.clone();
        let asked = |effects: &Effects| questions(effects, [part, other], range.as_ref());
        let mut questions = match effects.sync {
            Some(_) => asked(&effects),
            None => vec![no_sync(stream)],
        };
        // A part in use keeps registers and the current frame, on which a stream may depend.
        if let Some(walk) = walk.filter(|_| all_hold(&questions)) {
            questions.push(does_the_same(walk, &effects, asked));
        }
        Self {
            part,
            range,
            effects,
            questions,
        }
    }

    /// The answer in a word.
    pub fn answer(&self) -> &'static str {
        match self.passes() {
            true => "PASS",
            false => "FAIL",
        }
    }

    /// The answer in its colour, where colours are wanted.
    pub fn painted(&self) -> String {
        let colour = match self.passes() {
            true => output::GREEN,
            false => output::RED,
        };
        output::painted(self.answer(), colour)
    }

    pub fn passes(&self) -> bool {
        all_hold(&self.questions)
    }

    /// What a reader should know beside the answers.
    pub fn notes(&self) -> Vec<String> {
        let effects = &self.effects;
        let mut notes = Vec::new();
        if effects.sync.is_none() {
            return notes;
        }
        notes.push(effects.told());
        if effects.started {
            notes.push("the part starts".to_string());
        }
        if self.range.is_none() {
            notes.push(NO_RANGE.to_string());
        }
        notes
    }

    /// The frames stored outside the range; none where there is no range.
    pub fn outside(&self) -> FrameSet {
        let outside = |range: &NamedRange| range.outside(&self.effects.stored);
        self.range.as_ref().map_or_else(FrameSet::default, outside)
    }
}

/// What a verdict asks, in the order in which a reader needs it.
fn questions(
    effects: &Effects,
    [part, other]: [Option<Part>; 2],
    range: Option<&NamedRange>,
) -> Vec<Question> {
    let mut questions = vec![
        synced(effects),
        part_named(effects, part, other),
        no_stop(effects),
        is_whole(effects),
    ];
    if let Some(range) = range {
        questions.extend([in_range(effects, range), frames_only(effects)]);
    }
    questions.push(checked(effects));
    questions
}

fn question(name: &'static str, holds: bool, words: impl Into<String>) -> Question {
    let words = words.into();
    Question { name, holds, words }
}

fn all_hold(questions: &[Question]) -> bool {
    questions.iter().all(|question| question.holds)
}

fn synced(effects: &Effects) -> Question {
    match effects.sync {
        Some(offset) => question("sync", true, format!("sync word met at offset {offset}")),
        None => question("sync", false, "no sync word"),
    }
}

fn no_sync(stream: &[u8]) -> Question {
    let length = counted(stream.len() as u64, "byte");
    let guess = guess::looks_like(stream);
    question("sync", false, format!("no sync word in {length}: {guess}"))
}

/// `other` is the part that accepts the stream's IDCODE where `part` did not.
fn part_named(effects: &Effects, part: Option<Part>, other: Option<Part>) -> Question {
    let words = match (part, other) {
        (Some(part), _) if effects.idcode_accepted => {
            let name = part.name();
            return question("part", true, format!("the stream is for the {name}"));
        }
        (Some(part), Some(other)) => {
            format!(
                "the stream is for the {}, not the {}",
                other.name(),
                part.name()
            )
        }
        _ => unnamed(effects),
    };
    question("part", false, words)
}

/// Why no part has taken the stream for its own.
fn unnamed(effects: &Effects) -> String {
    let Some(stop) = &effects.stop else {
        return "the stream names no part: it has no IDCODE".to_string();
    };
    let Some(idcode) = stop.wrong_idcode() else {
        return "the stream names no part: it stopped before an IDCODE".to_string();
    };
    match Part::by_idcode(idcode) {
        Some(part) => format!(
            "its IDCODE {idcode:08X} is the {}'s, but what stands before it is not",
            part.name()
        ),
        None => format!("its IDCODE {idcode:08X} is no part's"),
    }
}

fn no_stop(effects: &Effects) -> Question {
    match &effects.stop {
        None => question("stop", true, "no stop"),
        Some(stop) => question("stop", false, stop.to_string()),
    }
}

fn is_whole(effects: &Effects) -> Question {
    let follows = match effects.follows() {
        0 => "nothing follows its end".to_string(),
        bytes => format!(
            "{} after its end, not taken as packets",
            counted(bytes as u64, "byte")
        ),
    };
    match effects.end {
        Phase::Hunting => question(
            "whole",
            true,
            format!("whole: ends waiting for sync; {follows}"),
        ),
        Phase::Stopped { .. } => {
            let words = match effects.follows() {
                0 => "not taken to its end: stopped at its last word".to_string(),
                left => format!(
                    "not taken to its end: {} left",
                    counted(left as u64, "byte")
                ),
            };
            question("whole", false, words)
        }
        Phase::Header { .. } => question("whole", false, "cut short: no DESYNC at its end"),
        Phase::Crc => question("whole", false, "cut short: ends before an auto CRC word"),
        Phase::Data { register, left } => {
            let (name, left) = (words::register_name(register), counted(left.into(), "word"));
            question(
                "whole",
                false,
                format!("cut short: ends within data for {name}, {left} missing"),
            )
        }
    }
}

fn in_range(effects: &Effects, range: &NamedRange) -> Question {
    let outside = range.outside(&effects.stored);
    match outside.is_empty() {
        true => question("range", true, "every stored frame is in the range"),
        false => {
            let count = counted(outside.len() as u64, "frame");
            question(
                "range",
                false,
                format!("{count} stored outside the range: {outside}"),
            )
        }
    }
}

fn frames_only(effects: &Effects) -> Question {
    let actions: Vec<String> = effects.whole_part.iter().map(action_words).collect();
    match actions.is_empty() {
        true => question("frames-only", true, "nothing acts on the whole part"),
        false => {
            let words = format!("acts on the whole part: {}", actions.join(", "));
            question("frames-only", false, words)
        }
    }
}

fn action_words(action: &WholePartAction) -> String {
    let WholePartAction { what, offset, .. } = action;
    match action.count {
        1 => format!("{what} at offset {offset}"),
        count => format!("{what} at offset {offset} ({count} times)"),
    }
}

fn checked(effects: &Effects) -> Question {
    match (effects.last_store, effects.check_after) {
        (None, _) => question("crc", true, "no frame is stored, so none needs a CRC check"),
        (_, Some(offset)) => {
            let words =
                format!("a CRC check passed after the last stored frame, at offset {offset}");
            question("crc", true, words)
        }
        (Some(_), None) => question(
            "crc",
            false,
            "no CRC check passed after the last stored frame",
        ),
    }
}

/// Asked of a stream that passes so far: a second load passes too, and leaves the same.
fn does_the_same(
    walk: Walk,
    first: &Effects,
    asked: impl Fn(&Effects) -> Vec<Question>,
) -> Question {
    let bytes = Walk::new(walk.part, walk.stream()).memory_left();
    let mut walk = walk.again();
    let is_rewritten = walk.memory_left() != bytes;
    let again = Effects::of(&mut walk);
    let failing = asked(&again).into_iter().find(|question| !question.holds);
    let differs = match failing {
        Some(question) => Some(format!(": {}", question.words)),
        None if again.stored != first.stored => Some(format!(" it {}", again.told())),
        None if is_rewritten => Some(" it stores other bytes".to_string()),
        None if again.whole_part != first.whole_part => {
            Some(" it acts otherwise on the whole part".to_string())
        }
        None => None,
    };
    let words = differs.as_deref().unwrap_or(" it does the same");
    let words = format!("loaded a second time{words}");
    question("again", differs.is_none(), words)
}
