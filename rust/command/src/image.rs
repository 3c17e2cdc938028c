//! A memory image: the frames of a part, frame 0 first.

use crate::failure::{Failure, Message};
use crate::input::Input;
use crate::part::Part;
use crate::words;
use std::ffi::OsStr;

/// The image of a part, or where none is named of the part whose memory is as long.
pub fn read(path: &OsStr, part: Option<Part>) -> Result<(Part, Input), Failure> {
    let input = Input::read(path)?;
    let length = input.bytes.len() as u64;
    let has_length = |part: &Part| part.figures.memory_bytes == length;
    let found = match part {
        Some(part) => Some(part).filter(has_length),
        None => Part::all().find(has_length),
    };
    match found {
        Some(found) => Ok((found, input)),
        None => Err(wrong_length(&input, part)),
    }
}

fn wrong_length(input: &Input, part: Option<Part>) -> Failure {
    const WRONG_MEMORY: u32 = 23;
    let meaning = words::meaning(WRONG_MEMORY);
    let length = words::counted(input.bytes.len() as u64, "byte");
    let words = match part {
        Some(part) => {
            let (name, bytes) = (part.name(), part.figures.memory_bytes);
            format!("{meaning}: {length}, the {name} has {bytes}")
        }
        None => format!("{meaning}: {length}, which no part's memory has"),
    };
    Failure::Refused(Message {
        number: Some(WRONG_MEMORY),
        ..Message::of_file(&input.name, words)
    })
}
