//! `load`: streams into the model of a part, in turn, and its memory into a file.

use crate::arguments::{Arguments, Flag};
use crate::effects::{Effects, Stop, StreamPart};
use crate::failure::{Failure, Message};
use crate::guess;
use crate::image;
use crate::input::Input;
use crate::output;
use crate::part::Part;
use crate::runs::FrameSet;
use crate::walk::Walk;
use crate::words::{self, counted};
use seamwillow_library::record::{Phase, Record};

pub fn run(arguments: &Arguments) -> Result<(), Failure> {
    let files = arguments.some_operands("STREAM")?;
    let target = arguments
        .value(Flag::Output)
        .ok_or_else(|| Failure::usage("-o IMAGE is missing: where is the memory to go"))?;
    let place = arguments.place()?;
    let streams = files.iter().map(|file| Input::read(file));
    let streams = streams.collect::<Result<Vec<Input>, Failure>>()?;
    let before = arguments.value(Flag::Image);
    let before = before
        .map(|path| image::read(path, place.part))
        .transpose()?;
    let of_image = before.as_ref().map(|(part, _)| *part);
    let part = place.part.or(of_image).or_else(|| part_of(&streams));
    let part = part.ok_or_else(|| unknown(&streams))?;
    let mut device = Loaded::powered(part, before.map(|(_, image)| image.bytes));
    let (told, loaded) = device.take_all(&streams)?;
    // A stop keeps the frames already stored, so the memory is kept as well. It is out before
    // anything is told, so that a failing standard output leaves no half of it.
    output::save_binary(target, &device.memory)?;
    if !output::is_standard(target) {
        arguments.say(&told)?;
    }
    loaded
}

/// The part of the first stream that names one.
fn part_of(streams: &[Input]) -> Option<Part> {
    let of_stream = |stream: &Input| StreamPart::of(&stream.bytes).filter(|it| it.is_named);
    streams.iter().find_map(of_stream).map(|it| it.part)
}

/// Why no part was found: a file that is no stream, or streams that no part takes for its own.
fn unknown(streams: &[Input]) -> Failure {
    let is_hunted = |stream: &&Input| StreamPart::of(&stream.bytes).is_none();
    Failure::Refused(match streams.iter().find(is_hunted) {
        Some(stream) => guess::no_sync(stream),
        None => Message {
            words: "the part is unknown: no IDCODE was accepted; name it with --part".to_string(),
            ..Message::default()
        },
    })
}

struct Loaded {
    part: Part,
    record: Record,
    memory: Vec<u8>,
}

impl Loaded {
    /// A part just powered on, with another memory where there is one.
    fn powered(part: Part, before: Option<Vec<u8>>) -> Self {
        let mut memory = part.memory(0);
        let (_, record) = Record::power_on(part.device, &mut memory);
        Self {
            part,
            record,
            memory: before.unwrap_or(memory),
        }
    }

    /// Loads the streams up to one that stops the part: what the good ones did, and how it ended.
    /// An error is a file that is no stream, for which nothing is kept.
    fn take_all(&mut self, streams: &[Input]) -> Result<(String, Result<(), Failure>), Failure> {
        let mut told = String::new();
        for stream in streams {
            let hunted = self.record.phase() == Phase::Hunting;
            let effects = self.take(stream);
            let refused = |message| Failure::Refused(message);
            if hunted && effects.sync.is_none() {
                return Err(refused(guess::no_sync(stream)));
            }
            if let Some(stop) = effects.stop {
                return Ok((told, Err(refused(stopped(stream, &stop, &effects.stored)))));
            }
            let (name, bytes) = (&stream.name, counted(effects.taken as u64, "byte"));
            let (part, stored) = (self.part.name(), stored_words(&effects.stored));
            told += &format!("{name}: {bytes} into the {part}; {stored}\n");
        }
        let ended = match (self.record.phase(), streams.last()) {
            (Phase::Hunting, _) | (_, None) => Ok(()),
            (_, Some(last)) => {
                let words = "cut short: the part still waits for the rest of it";
                Err(Failure::Refused(Message::of_file(&last.name, words)))
            }
        };
        Ok((told, ended))
    }

    /// Loads a stream; what it does.
    fn take(&mut self, stream: &Input) -> Effects {
        let mut walk = Walk::resumed(self.part, self.record.clone(), &stream.bytes);
        self.record.load(&mut self.memory, &stream.bytes);
        Effects::of(&mut walk)
    }
}

fn stopped(stream: &Input, stop: &Stop, stored: &FrameSet) -> Message {
    Message {
        offset: Some(stop.offset as u64),
        number: Some(stop.number),
        context: vec![format!("before it {}", stored_words(stored))],
        ..Message::of_file(&stream.name, words::meaning(stop.number))
    }
}

fn stored_words(stored: &FrameSet) -> String {
    match stored.len() {
        0 => "no frame was stored".to_string(),
        1 => format!("1 frame was stored: {stored}"),
        count => format!("{count} frames were stored: {stored}"),
    }
}
