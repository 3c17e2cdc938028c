//! `explain`: a stream packet by packet.

use crate::arguments::{Arguments, Flag};
use crate::desk::{NamedRange, Place};
use crate::effects::{Stop, StreamPart};
use crate::failure::{Failure, Message};
use crate::guess;
use crate::input::Input;
use crate::part::Part;
use crate::walk::{Step, Walk, WORD};
use crate::words::{self, command, counted, register};
use seamwillow_library::record::Phase;
use std::fmt::Write;

/// Words of frame data on a line.
const WORDS_A_LINE: usize = 8;
/// Bytes before the sync word that are shown.
const SHOWN: usize = 8;

pub fn run(arguments: &Arguments) -> Result<(), Failure> {
    let file = arguments.operand("STREAM")?;
    let place = arguments.place()?;
    let input = Input::read(file)?;
    let no_sync = || Failure::Refused(guess::no_sync(&input));
    let of_stream = || StreamPart::of(&input.bytes);
    let read_as = place.part.map(StreamPart::given).or_else(of_stream);
    let read_as = read_as.ok_or_else(no_sync)?;
    place.judge_range(read_as.part, Some(&input.name))?;
    let mut explainer = Explainer::new(&input, read_as.part, place.range.clone());
    explainer.title(&input.name, &place, read_as);
    explainer.unfolds = arguments.has(Flag::All);
    let mut walk = Walk::new(read_as.part, &input.bytes);
    let (mut is_synced, mut stop) = (false, None);
    for step in &mut walk {
        is_synced |= step.is_sync();
        stop = step.stop().map(|number| (step.last_word(), number));
        explainer.explain(&step);
    }
    if !is_synced {
        return Err(no_sync());
    }
    explainer.end(walk.record().phase());
    arguments.say(&explainer.text)?;
    match stop {
        Some((offset, number)) => Err(Failure::Refused(Message {
            offset: Some(offset as u64),
            number: Some(number),
            ..Message::of_file(&input.name, words::meaning(number))
        })),
        None => Ok(()),
    }
}

/// A place in the stream, and the words from it on that are told together.
#[derive(Clone, Copy)]
struct Span {
    offset: usize,
    words: usize,
}

struct Explainer<'a> {
    part: Part,
    range: Option<NamedRange>,
    stream: &'a [u8],
    /// Frame data is shown word by word.
    unfolds: bool,
    text: String,
    /// Headers, and words before a packet's last, that are told with what follows.
    header: Option<Span>,
    /// Words that did nothing.
    no_operations: Option<Span>,
}

impl<'a> Explainer<'a> {
    fn new(input: &'a Input, part: Part, range: Option<NamedRange>) -> Self {
        Self {
            part,
            range,
            stream: &input.bytes,
            unfolds: false,
            text: String::new(),
            header: None,
            no_operations: None,
        }
    }

    fn title(&mut self, name: &str, place: &Place, read_as: StreamPart) {
        let part = self.part.name();
        let for_part = match (place.part, read_as.is_named) {
            (Some(_), _) => format!(", taken by the {part}"),
            (None, true) => format!(" for the {part}"),
            (None, false) => format!(" for no part, read as for the {part}"),
        };
        let bytes = counted(self.stream.len() as u64, "byte");
        // Writing to a string does not fail.
        let _ = writeln!(self.text, "{name}: {bytes}{for_part}\n  offset   words");
    }

    fn row(&mut self, span: Span, words: &str) {
        let Span {
            offset,
            words: count,
        } = span;
        let _ = writeln!(self.text, "{offset:>8} {count:>7}  {words}");
    }

    fn detail(&mut self, words: &str) {
        let _ = writeln!(self.text, "{:18}{words}", "");
    }

    fn explain(&mut self, step: &Step) {
        let is_no_operation = is_no_operation(step);
        if !is_no_operation {
            self.flush_no_operations();
        }
        self.flush_empty(step);
        match step.before.phase() {
            Phase::Hunting => self.hunt(step),
            Phase::Header { .. } if is_no_operation => self.count_no_operation(step),
            Phase::Header { .. } => self.packet_header(step),
            Phase::Data { register, left } => self.data(step, register, left),
            Phase::Crc => self.check(step, "auto CRC"),
            Phase::Stopped { .. } => {}
        }
    }

    fn hunt(&mut self, step: &Step) {
        let sync = if step.is_sync() { WORD } else { 0 };
        let passed = step.length - sync;
        if passed > 0 {
            let bytes = &self.stream[step.offset..step.offset + passed];
            let shown: String = bytes
                .iter()
                .take(SHOWN)
                .map(|byte| format!(" {byte:02X}"))
                .collect();
            let more = if passed > SHOWN { " .." } else { "" };
            let bytes = counted(passed as u64, "byte");
            let words = match step.is_sync() {
                true => format!("{bytes} before a sync word:{shown}{more}"),
                false => format!("{bytes} without a sync word:{shown}{more}"),
            };
            self.row(
                Span {
                    offset: step.offset,
                    words: passed / WORD,
                },
                &words,
            );
        }
        if step.is_sync() {
            let offset = step.last_word();
            let words = format!("sync word {:08X}", step.word(self.stream));
            self.row(Span { offset, words: 1 }, &words);
        }
    }

    fn count_no_operation(&mut self, step: &Step) {
        let span = self.no_operations.unwrap_or(Span {
            offset: step.offset,
            words: 0,
        });
        self.no_operations = Some(Span {
            words: span.words + step.length / WORD,
            ..span
        });
    }

    fn flush_no_operations(&mut self) {
        if let Some(span) = self.no_operations.take() {
            self.row(span, "no operation");
        }
    }

    /// A packet of no words is told when the step is not its second header.
    fn flush_empty(&mut self, step: &Step) {
        let Phase::Header {
            open: Some(register),
        } = step.before.phase()
        else {
            return;
        };
        let goes_on = match step.after.phase() {
            Phase::Data { register: to, .. } => to == register,
            Phase::Stopped { .. } => true,
            _ => !step.is_whole(),
        };
        if !goes_on {
            self.empty_packet(register);
        }
    }

    fn empty_packet(&mut self, register: u32) {
        if let Some(span) = self.header.take() {
            self.row(
                span,
                &format!("{:<9}no words", words::register_name(register)),
            );
        }
    }

    /// A packet of which the stream has no word, or not the one that is told.
    fn cut_packet(&mut self, register: u32, left: u32) {
        if let Some(span) = self.header.take() {
            let (name, left) = (words::register_name(register), counted(left.into(), "word"));
            self.row(span, &format!("{name:<9}cut short, {left} missing"));
        }
    }

    /// A header that opens a register or begins a packet is told with the packet's data.
    fn packet_header(&mut self, step: &Step) {
        let span = self.joined(step);
        match step.after.phase() {
            Phase::Stopped { number } => {
                let words = format!("header {:08X}", step.word(self.stream));
                self.stopped(span, step, &words, number);
            }
            _ if !step.is_whole() => self.row(span, "cut within a word"),
            _ => self.header = Some(span),
        }
    }

    /// The step with the headers before it.
    fn joined(&mut self, step: &Step) -> Span {
        let words = step.length / WORD;
        match self.header.take() {
            Some(header) => Span {
                words: header.words + words,
                ..header
            },
            None => Span {
                offset: step.offset,
                words,
            },
        }
    }

    fn data(&mut self, step: &Step, register: u32, left: u32) {
        if register == register::CRC {
            return self.check(step, "CRC");
        }
        let span = self.joined(step);
        let name = words::register_name(register);
        let is_many = matches!(register, register::FDRI | register::LOUT);
        let what = match is_many {
            true => format!("{name:<9}{}", counted((step.length / WORD) as u64, "word")),
            false => format!("{name:<9}{:08X} ", step.word(self.stream)),
        };
        if let Some(number) = step.stop() {
            self.stopped(span, step, &what, number);
        } else if !step.is_whole() {
            self.row(span, &format!("{name:<9}cut within a word"));
        } else if register == register::MFWR && step.stored.is_empty() {
            // The second word is the one that stores.
            self.header = Some(span);
        } else {
            let meaning = self.meaning(step, register, left);
            self.row(span, &format!("{what} {meaning}"));
            self.stores(step);
            self.acts(step);
        }
        if is_many && self.unfolds {
            self.unfold(step);
        }
    }

    /// What a good word did.
    fn meaning(&self, step: &Step, register: u32, left: u32) -> String {
        match register {
            register::FDRI => match (step.length / WORD) as u32 == left {
                true => "of frame data; the last frame stays in the buffer".to_string(),
                false => "of frame data, cut short".to_string(),
            },
            register::LOUT => "to the next part of a chain".to_string(),
            register::MFWR => "the frame in the buffer is stored".to_string(),
            register::CMD => command_words(step),
            register::FAR => self.frame_words(step),
            register::IDCODE => format!("accepted: the {}'s", self.part.name()),
            register::FLR => format!(
                "accepted: frames of {} words",
                self.part.figures.frame_words
            ),
            _ => format!("the register holds {:08X}", step.after.register(register)),
        }
    }

    fn frame_words(&self, step: &Step) -> String {
        let frame = step
            .after
            .current_frame()
            .and_then(|number| self.part.frame(number).ok());
        let place = match frame {
            Some(frame) => frame.to_string(),
            None => "no frame of the part".to_string(),
        };
        match step.before.register(register::CMD) {
            command::NULL | command::WCFG | command::MFWR | command::RCFG => place,
            code => format!("{place}; CMD {} acts again", words::command_words(code).0),
        }
    }

    /// A word to CRC, or in the auto CRC's place.
    fn check(&mut self, step: &Step, name: &str) {
        let span = self.joined(step);
        let what = format!("{name:<9}{:08X} ", step.word(self.stream));
        match step.stop() {
            Some(number) => self.stopped(span, step, &what, number),
            None if !step.is_whole() => self.row(span, &format!("{name:<9}cut within a word")),
            None => self.row(span, &format!("{what} check passed")),
        }
    }

    fn stopped(&mut self, span: Span, step: &Step, what: &str, number: u32) {
        let meaning = words::meaning(number);
        self.row(span, &format!("{what} STOP {number}: {meaning}"));
        if let Some(word) = step.passing_word() {
            self.detail(&format!("{word:08X} would have passed"));
        }
        if let Some(state) = Stop::of(step, number, self.stream).state {
            self.detail(&format!("at that point: {state}"));
        }
        if step.length > WORD {
            self.detail(&format!(
                "the bad word stands at offset {}",
                step.last_word()
            ));
        }
        self.stores(step);
    }

    fn stores(&mut self, step: &Step) {
        for place in self.part.places(&step.stored) {
            self.detail(&format!("stores {place}"));
        }
        let range = self.range.as_ref();
        let outside = range.map(|range| range.outside(&step.stored));
        if let Some(outside) = outside.filter(|frames| !frames.is_empty()) {
            self.detail(&format!("OUTSIDE the range: {outside}"));
        }
    }

    /// With a range, what check would not pass is pointed out.
    fn acts(&mut self, step: &Step) {
        if self.range.is_some() && step.whole_part_action().is_some() {
            self.detail("ACTS on the whole part");
        }
    }

    fn unfold(&mut self, step: &Step) {
        let bytes = &self.stream[step.offset..step.offset + step.length];
        for (index, line) in bytes.chunks(WORD * WORDS_A_LINE).enumerate() {
            let offset = step.offset + index * WORD * WORDS_A_LINE;
            let word =
                |word: &[u8]| -> String { word.iter().map(|byte| format!("{byte:02X}")).collect() };
            let words: Vec<String> = line.chunks(WORD).map(word).collect();
            let _ = writeln!(self.text, "{offset:>8}          {}", words.join(" "));
        }
    }

    fn end(&mut self, phase: Phase) {
        self.flush_no_operations();
        match phase {
            Phase::Header {
                open: Some(register),
            } => self.empty_packet(register),
            Phase::Data { register, left } => self.cut_packet(register, left),
            _ => {}
        }
        let length = self.stream.len();
        let words = match phase {
            Phase::Hunting => "the end; the part waits for sync",
            Phase::Stopped { .. } => "the end of the stream; from the stop on nothing was taken",
            _ => "the end, cut short: the part waits for more words",
        };
        let _ = writeln!(self.text, "{length:>8} {:>7}  {words}", "");
    }
}

/// A header after which nothing is open.
fn is_no_operation(step: &Step) -> bool {
    let in_header = matches!(step.before.phase(), Phase::Header { .. });
    in_header && step.is_whole() && step.after.phase() == Phase::Header { open: None }
}

fn command_words(step: &Step) -> String {
    let (name, meaning) = words::command_words(step.after.register(register::CMD));
    let starts = step.after.flags().started && !step.before.flags().started;
    let starts = if starts { "; the part starts" } else { "" };
    format!("{name}: {meaning}{starts}")
}
