//! `parts`, `frame` and `numbers`: the tables.

use crate::arguments::{part_named, unexpected, Arguments, Flag};
use crate::failure::{Failure, Message};
use crate::json;
use crate::part::{Frame, Part};
use crate::words::{self, Number};
use std::fmt::Write;

/// An address has this many hexadecimal digits.
const ADDRESS_DIGITS: usize = 8;

pub fn parts(arguments: &Arguments) -> Result<(), Failure> {
    if let Some(word) = arguments.operands.first() {
        return Err(unexpected(word));
    }
    if arguments.has(Flag::Json) {
        let parts = json::list(Part::all().map(part_object));
        return arguments.say(&format!("{parts}\n"));
    }
    let mut text = String::from("no  part      IDCODE    words a frame  frames  memory bytes\n");
    for part in Part::all() {
        let (device, name, it) = (part.device, part.name(), part.figures);
        let _ = writeln!(
            text,
            "{device:<3} {name:<9} {:08X}  {:>13}  {:>6}  {:>12}",
            it.idcode, it.frame_words, it.frames, it.memory_bytes
        );
    }
    arguments.say(&text)
}

fn part_object(part: Part) -> String {
    let figures = part.figures;
    json::object(&[
        ("device", part.device.to_string()),
        ("part", json::string(part.name())),
        ("idcode", json::string(&format!("{:08X}", figures.idcode))),
        ("frame_words", figures.frame_words.to_string()),
        ("frames", figures.frames.to_string()),
        ("memory_bytes", figures.memory_bytes.to_string()),
    ])
}

pub fn frame(arguments: &Arguments) -> Result<(), Failure> {
    let (part, wanted) = match arguments.operands.as_slice() {
        [part, wanted] => (part.to_string_lossy(), wanted.to_string_lossy()),
        [_, _, more, ..] => return Err(unexpected(more)),
        _ => {
            return Err(Failure::usage(
                "PART and a frame's NUMBER or ADDRESS are missing",
            ))
        }
    };
    let part = part_named(&part)?;
    let frame = found(part, &wanted)?;
    let text = match arguments.has(Flag::Json) {
        true => format!("{}\n", frame_object(part, frame)),
        false => frame_text(part, frame),
    };
    arguments.say(&text)
}

/// A decimal number is a frame's number; `0x` or eight hexadecimal digits are an address.
fn found(part: Part, wanted: &str) -> Result<Frame, Failure> {
    let refused = |words: String, number| {
        Failure::Refused(Message {
            words,
            number,
            ..Message::default()
        })
    };
    let hex = wanted.strip_prefix("0x").or(wanted.strip_prefix("0X"));
    let digits = hex.or((wanted.len() == ADDRESS_DIGITS).then_some(wanted));
    let is_hex =
        |digits: &&str| !digits.is_empty() && digits.bytes().all(|it| it.is_ascii_hexdigit());
    if let Some(digits) = digits.filter(is_hex) {
        let address = u32::from_str_radix(digits, 16)
            .map_err(|_| Failure::usage(format!("{wanted} is longer than an address")))?;
        let none = || {
            format!(
                "{address:08X}: no frame of the {} has this address",
                part.name()
            )
        };
        return part.frame_at(address).ok_or_else(|| refused(none(), None));
    }
    let neither = || {
        let word = words::seen(wanted);
        Failure::usage(format!("{word} is neither a frame number nor an address"))
    };
    let number = words::decimal(wanted).ok_or_else(neither)?;
    part.frame(number).map_err(|code| {
        let (meaning, frames) = (words::meaning(code), part.figures.frames);
        let words = format!(
            "{number}: {meaning}: the {} has {frames} frames",
            part.name()
        );
        refused(words, Some(code))
    })
}

fn frame_text(part: Part, frame: Frame) -> String {
    let (name, fields) = (part.name(), frame.fields);
    let (number, address, column) = (frame.number, frame.address, frame.column);
    format!(
        "{name} frame {number}: address {address:08X}, block {} major {} minor {}, {column}\n",
        fields.block, fields.major, fields.minor
    )
}

fn frame_object(part: Part, frame: Frame) -> String {
    json::object(&[
        ("part", json::string(part.name())),
        ("frame", frame.number.to_string()),
        ("address", json::string(&format!("{:08X}", frame.address))),
        ("block", frame.fields.block.to_string()),
        ("major", frame.fields.major.to_string()),
        ("minor", frame.fields.minor.to_string()),
        ("column", json::string(frame.column)),
    ])
}

pub fn numbers(arguments: &Arguments) -> Result<(), Failure> {
    let line = |known: &Number| {
        let (number, kind, meaning) = (known.number, known.kind.name(), known.meaning);
        format!("{number:>2}  {kind:<7}  {meaning}\n")
    };
    let wanted = match arguments.operands.as_slice() {
        [] => return arguments.say(&words::NUMBERS.iter().map(line).collect::<String>()),
        [wanted] => wanted.to_string_lossy(),
        [_, more, ..] => return Err(unexpected(more)),
    };
    if !words::is_decimal(&wanted) {
        let word = words::seen(&wanted);
        return Err(Failure::usage(format!("{word} is no number")));
    }
    match words::decimal(&wanted).and_then(words::number) {
        Some(known) => arguments.say(&line(known)),
        None => Err(Failure::Refused(Message {
            words: format!("{wanted} is no stop and no refusal"),
            ..Message::default()
        })),
    }
}
