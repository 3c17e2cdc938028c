//! The command line: options anywhere, files in order.

use crate::desk::{self, Desk, Place};
use crate::failure::{Failure, Message};
use crate::output;
use crate::part::{NoPart, Part};
use crate::words::seen;
use std::ffi::{OsStr, OsString};
use std::os::unix::ffi::OsStrExt;

/// What a subcommand understands beside `--help` and `--version`.
#[derive(Clone, Copy, PartialEq, Eq, Debug)]
pub enum Flag {
    Part,
    Desk,
    Seat,
    Frames,
    Json,
    Quiet,
    All,
    Svg,
    Html,
    Image,
    Output,
}

/// The options that name a part.
pub const PART: [Flag; 2] = [Flag::Part, Flag::Desk];
/// The options that name frames of it.
pub const RANGE: [Flag; 2] = [Flag::Seat, Flag::Frames];

/// Each option's spellings, and whether a value follows.
const OPTIONS: [(Flag, &str, &str, bool); 11] = [
    (Flag::Part, "--part", "", true),
    (Flag::Desk, "--desk", "", true),
    (Flag::Seat, "--seat", "", true),
    (Flag::Frames, "--frames", "", true),
    (Flag::Json, "--json", "", false),
    (Flag::Quiet, "--quiet", "-q", false),
    (Flag::All, "--all", "", false),
    (Flag::Svg, "--svg", "", true),
    (Flag::Html, "--html", "", true),
    (Flag::Image, "--image", "", true),
    (Flag::Output, "--output", "-o", true),
];

/// The arguments after a subcommand's name.
#[derive(Default, Debug)]
pub struct Arguments {
    given: Vec<(Flag, OsString)>,
    pub operands: Vec<OsString>,
    pub help: bool,
    pub version: bool,
}

impl Arguments {
    pub fn parse(words: Vec<OsString>, known: &[Flag]) -> Result<Self, Failure> {
        let mut arguments = Self::default();
        let mut words = words.into_iter();
        while let Some(word) = words.next() {
            match word.as_bytes() {
                b"--" => arguments.operands.extend(words.by_ref()),
                b"--help" | b"-h" => arguments.help = true,
                b"--version" | b"-V" => arguments.version = true,
                [b'-', _, ..] => {
                    let (flag, value) = option(&word, known, &mut words)?;
                    arguments.add(flag, value)?;
                }
                _ => arguments.operands.push(word),
            }
        }
        Ok(arguments)
    }

    fn add(&mut self, flag: Flag, value: OsString) -> Result<(), Failure> {
        if self.has(flag) && flag != Flag::Quiet {
            return Err(Failure::usage(format!("{} is given twice", spelling(flag))));
        }
        self.given.push((flag, value));
        Ok(())
    }

    pub fn has(&self, flag: Flag) -> bool {
        self.value(flag).is_some()
    }

    pub fn value(&self, flag: Flag) -> Option<&OsStr> {
        let given = self.given.iter().find(|(it, _)| *it == flag);
        given.map(|(_, value)| value.as_os_str())
    }

    fn text(&self, flag: Flag) -> Result<Option<&str>, Failure> {
        let not_text = || Failure::usage(format!("{} is not text", spelling(flag)));
        let value = self.value(flag);
        value
            .map(|value| value.to_str().ok_or_else(not_text))
            .transpose()
    }

    /// Says something on standard output, unless nothing is to be said.
    pub fn say(&self, text: &str) -> Result<(), Failure> {
        match self.has(Flag::Quiet) {
            true => Ok(()),
            false => output::print(text),
        }
    }

    /// The one operand of a subcommand that takes one.
    pub fn operand(&self, what: &str) -> Result<&OsStr, Failure> {
        match self.operands.as_slice() {
            [one] => Ok(one),
            [] => Err(Failure::usage(format!("{what} is missing"))),
            [_, more, ..] => Err(unexpected(more)),
        }
    }

    /// The operands of a subcommand that takes one or more.
    pub fn some_operands(&self, what: &str) -> Result<&[OsString], Failure> {
        match self.operands.as_slice() {
            [] => Err(Failure::usage(format!("{what} is missing"))),
            some => Ok(some),
        }
    }

    /// The part and the range that the options and the desk name.
    pub fn place(&self) -> Result<Place, Failure> {
        let desk = self.value(Flag::Desk).map(Desk::read).transpose()?;
        let part = self.text(Flag::Part)?.map(part_named).transpose()?;
        let part = match (part, &desk) {
            (Some(part), Some(desk)) if part != desk.part => {
                let (ours, theirs) = (part.name(), desk.part.name());
                return Err(Failure::usage(format!(
                    "--part is {ours}, but the desk's part is {theirs}"
                )));
            }
            (part, desk) => part.or(desk.as_ref().map(|desk| desk.part)),
        };
        let range = match (self.text(Flag::Seat)?, self.text(Flag::Frames)?) {
            (Some(_), Some(_)) => {
                return Err(Failure::usage("--seat and --frames exclude each other"))
            }
            (Some(seat), None) => match &desk {
                Some(desk) => Some(desk.seat(seat)?),
                None => {
                    return Err(Failure::usage(
                        "--seat needs --desk, which says where the seat is",
                    ))
                }
            },
            (None, Some(text)) => Some(desk::frames(text).map_err(Failure::Usage)?),
            (None, None) => None,
        };
        let place = Place { part, range };
        part.map_or(Ok(()), |part| place.judge_range(part, None))?;
        Ok(place)
    }

    /// The part and the range of a verdict: a desk without a seat would pass every frame.
    pub fn judged_place(&self) -> Result<Place, Failure> {
        let place = self.place()?;
        match self.has(Flag::Desk) && place.range.is_none() {
            true => Err(Failure::usage(
                "which seat of the desk: name it with --seat, or its frames with --frames",
            )),
            false => Ok(place),
        }
    }
}

/// The flag of an option's spelling, and its value, which need not be text.
fn option(
    word: &OsStr,
    known: &[Flag],
    words: &mut impl Iterator<Item = OsString>,
) -> Result<(Flag, OsString), Failure> {
    let mut halves = word.as_bytes().splitn(2, |byte| *byte == b'=');
    let (name, attached) = match (halves.next(), halves.next()) {
        (Some(name), value) if name.starts_with(b"--") => (name, value),
        _ => (word.as_bytes(), None),
    };
    let of_name = |(flag, long, short, _): &&(Flag, &str, &str, bool)| {
        known.contains(flag) && [long.as_bytes(), short.as_bytes()].contains(&name)
    };
    let shown = OsStr::from_bytes(name).to_string_lossy();
    let Some(&(flag, _, _, takes_value)) = OPTIONS.iter().find(of_name) else {
        return Err(Failure::usage(format!("unknown option {shown}")));
    };
    let value = match (takes_value, attached) {
        (true, Some(value)) => OsStr::from_bytes(value).to_os_string(),
        (true, None) => words
            .next()
            .ok_or_else(|| Failure::usage(format!("{shown} needs a value")))?,
        (false, Some(_)) => return Err(Failure::usage(format!("{shown} takes no value"))),
        (false, None) => OsString::new(),
    };
    Ok((flag, value))
}

fn spelling(flag: Flag) -> &'static str {
    let option = OPTIONS.iter().find(|(it, ..)| *it == flag);
    option.map_or("an option", |(_, long, ..)| long)
}

pub fn unexpected(word: &OsStr) -> Failure {
    let word = word.to_string_lossy();
    Failure::usage(format!("unexpected argument {}", seen(&word)))
}

/// The part of a name or a device number.
pub fn part_named(text: &str) -> Result<Part, Failure> {
    Part::named(text).map_err(|NoPart { words, number }| match number {
        // A word that is no device number has none of 01's numbers.
        None => Failure::usage(format!(
            "{words}: XC3S50 to XC3S5000, or 0 to 7 (see seamwillow parts)"
        )),
        Some(_) => Failure::Trouble(Message {
            words,
            number,
            ..Message::default()
        }),
    })
}
