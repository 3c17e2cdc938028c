//! A desk file: the desk's part and its seats. It is the desk's and never the pupil's.

use crate::failure::{Failure, Message};
use crate::input::Input;
use crate::part::{NoPart, Part};
use crate::runs::FrameSet;
use crate::words;
use seamwillow_library::FrameRange;
use std::ffi::OsStr;
use std::fmt;

/// Frames that the desk names, with the seat's name where they have one.
#[derive(Clone, PartialEq, Eq, Debug)]
pub struct NamedRange {
    pub seat: Option<String>,
    pub frames: FrameRange,
}

impl NamedRange {
    /// Whether the range has the frame.
    pub fn owns(&self, frame: u32) -> bool {
        let first = u64::from(self.frames.first);
        (first..first + u64::from(self.frames.count)).contains(&u64::from(frame))
    }

    /// Those of the frames that the range does not have.
    pub fn outside(&self, frames: &FrameSet) -> FrameSet {
        frames.filtered(|frame| !self.owns(frame))
    }
}

impl fmt::Display for NamedRange {
    fn fmt(&self, out: &mut fmt::Formatter) -> fmt::Result {
        let FrameRange { first, count } = self.frames;
        if let Some(seat) = &self.seat {
            write!(out, "seat {}, ", words::plain(seat))?;
        }
        write!(out, "{}", words::frame_run(first, count))
    }
}

/// The part and the range that something is told of.
pub fn place_words(part: Option<Part>, range: Option<&NamedRange>) -> String {
    let part = part.map_or("part unknown", |part| part.name());
    match range {
        Some(range) => format!("{part}, {range}"),
        None => format!("{part}, no range given"),
    }
}

/// What the options and the desk say of a part and a range.
#[derive(Clone, Debug)]
pub struct Place {
    pub part: Option<Part>,
    pub range: Option<NamedRange>,
}

impl Place {
    /// 37 where the part does not have the range; the part may be that of a file.
    pub fn judge_range(&self, part: Part, file: Option<&str>) -> Result<(), Failure> {
        let frames = self.range.as_ref().map(|range| range.frames);
        let refused = frames.and_then(|frames| part.refuses(frames).map(|it| (frames, it)));
        let Some((FrameRange { first, count }, number)) = refused else {
            return Ok(());
        };
        let (meaning, name) = (words::meaning(number), part.name());
        Err(Failure::Refused(Message {
            file: file.map(str::to_string),
            words: format!("{first}:{count} of the {name}: {meaning}"),
            number: Some(number),
            ..Message::default()
        }))
    }
}

struct Seat {
    name: String,
    /// The line that names it.
    line: usize,
    /// One run today; a later edition may have more.
    runs: Vec<FrameRange>,
}

/// What is wrong with a desk file, in which line; 0 is the whole file.
struct Fault {
    line: usize,
    words: String,
    number: Option<u32>,
}

impl Fault {
    fn new(line: usize, words: impl Into<String>) -> Self {
        Self {
            line,
            words: words.into(),
            number: None,
        }
    }

    fn failure(self, file: &str) -> Failure {
        let words = match self.line {
            0 => self.words,
            line => format!("line {line}: {}", self.words),
        };
        Failure::Trouble(Message {
            number: self.number,
            ..Message::of_file(file, words)
        })
    }
}

pub struct Desk {
    file: String,
    pub part: Part,
    seats: Vec<Seat>,
}

impl Desk {
    pub fn read(path: &OsStr) -> Result<Self, Failure> {
        let input = Input::read(path)?;
        // Some editors put a mark before the first letter.
        let mark = "\u{FEFF}".as_bytes();
        let text = input.bytes.strip_prefix(mark).unwrap_or(&input.bytes);
        Self::parse(&input.name, text).map_err(|fault| fault.failure(&input.name))
    }

    fn parse(file: &str, text: &[u8]) -> Result<Self, Fault> {
        let mut part = None;
        let mut seats: Vec<Seat> = Vec::new();
        for (line, text) in (1..).zip(text.split(|byte| *byte == b'\n')) {
            let text = before_comment(text).ok_or(Fault::new(line, "not text"))?;
            let words: Vec<&str> = text.split_whitespace().collect();
            let wrong = |words: String| Fault::new(line, words);
            match words.as_slice() {
                [] => {}
                ["part", ..] if part.is_some() => {
                    return Err(Fault::new(line, "the part is named a second time"));
                }
                ["part", rest @ ..] => part = Some(part_line(line, rest)?),
                ["seat", rest @ ..] => {
                    let seat = seat_line(line, rest).map_err(wrong)?;
                    is_new(&seat, &seats).map_err(wrong)?;
                    seats.push(seat);
                }
                [word, ..] => return Err(wrong(format!("{word} is neither part nor seat"))),
            }
        }
        let part = part.ok_or(Fault::new(0, "no line names the part"))?;
        seats.iter().try_for_each(|seat| fits(part, seat))?;
        let file = file.to_string();
        Ok(Self { file, part, seats })
    }

    /// The frames of a seat.
    pub fn seat(&self, name: &str) -> Result<NamedRange, Failure> {
        let seat = self.seats.iter().find(|seat| seat.name == name);
        let run = seat.and_then(|seat| seat.runs.first());
        let Some(&frames) = run else {
            let (name, others) = (words::seen(name), self.seat_names());
            let words = format!("no seat {name}; it has {others}");
            return Err(Failure::Trouble(Message::of_file(&self.file, words)));
        };
        Ok(NamedRange {
            seat: Some(name.to_string()),
            frames,
        })
    }

    fn seat_names(&self) -> String {
        let names: Vec<&str> = self.seats.iter().map(|seat| seat.name.as_str()).collect();
        match names.is_empty() {
            true => "no seats".to_string(),
            false => names.join(", "),
        }
    }
}

/// A line up to its comment, which alone may be in any encoding; none where that is not text.
fn before_comment(line: &[u8]) -> Option<&str> {
    let text = line.split(|byte| *byte == b'#').next();
    std::str::from_utf8(text.unwrap_or_default()).ok()
}

fn part_line(line: usize, words: &[&str]) -> Result<Part, Fault> {
    let unknown = |NoPart { words, number }| Fault {
        line,
        words,
        number,
    };
    match words {
        [name] => Part::named(name).map_err(unknown),
        _ => Err(Fault::new(line, "a part line is: part NAME")),
    }
}

/// A seat's name stands once.
fn is_new(seat: &Seat, seats: &[Seat]) -> Result<(), String> {
    match seats.iter().find(|other| other.name == seat.name) {
        Some(other) => Err(format!(
            "seat {} stands in line {} already",
            seat.name, other.line
        )),
        None => Ok(()),
    }
}

/// The part has every frame of the seat.
fn fits(part: Part, seat: &Seat) -> Result<(), Fault> {
    match seat.runs.iter().find_map(|&run| part.refuses(run)) {
        Some(number) => {
            let (name, meaning) = (&seat.name, words::meaning(number));
            let words = format!("seat {name} of the {}: {meaning}", part.name());
            let number = Some(number);
            let line = seat.line;
            Err(Fault {
                line,
                words,
                number,
            })
        }
        None => Ok(()),
    }
}

fn seat_line(line: usize, words: &[&str]) -> Result<Seat, String> {
    let [name, runs @ ..] = words else {
        return Err("a seat line is: seat NAME FIRST:COUNT".to_string());
    };
    // The form is judged before the number: blanks around the colon make no several runs.
    let runs = runs.iter().map(|run| run_of(run));
    let runs = runs.collect::<Result<Vec<FrameRange>, String>>()?;
    match runs.len() {
        0 => Err(format!("seat {name} has no frames: seat NAME FIRST:COUNT")),
        1 => Ok(Seat {
            name: name.to_string(),
            line,
            runs,
        }),
        _ => Err(format!("seat {name} has several runs; one is taken today")),
    }
}

/// FIRST:COUNT, as `--frames` has it.
pub fn frames(text: &str) -> Result<NamedRange, String> {
    let frames = run_of(text)?;
    Ok(NamedRange { seat: None, frames })
}

fn run_of(text: &str) -> Result<FrameRange, String> {
    let wrong = || {
        let word = words::seen(text);
        format!("{word} is not FIRST:COUNT, two numbers under 4294967296")
    };
    let (first, count) = text.split_once(':').ok_or_else(wrong)?;
    let number = |text: &str| words::decimal(text).ok_or_else(wrong);
    Ok(FrameRange {
        first: number(first)?,
        count: number(count)?,
    })
}
