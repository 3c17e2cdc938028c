//! A stream taken by a part just powered on, step by step: a step is a word, or many words whose
//! register does nothing between them.
//!
//! The record before a step says where its bytes go, the record after it what came of them. What
//! is stored shows in two memories, one of 00 and one of FF: a frame that is the same in both was
//! stored, since what a load stores does not depend on the memory.

use crate::part::Part;
use crate::runs::FrameSet;
use crate::words::{self, command, register};
use seamwillow_library::{
    self as library,
    record::{Phase, Record},
};
use std::ops::Range;

/// Bytes of a word.
pub const WORD: usize = 4;
/// The first look for a sync word, which often comes first; each next one is twice as long.
const FIRST_LOOK: usize = WORD;

/// Bytes that were taken together.
pub struct Step {
    /// Where they begin in the stream, and how many they are.
    pub offset: usize,
    pub length: usize,
    pub before: Record,
    pub after: Record,
    /// The frames that they stored.
    pub stored: FrameSet,
}

impl Step {
    /// The bytes that end the hunt.
    pub fn is_sync(&self) -> bool {
        self.before.phase() == Phase::Hunting && self.after.phase() != Phase::Hunting
    }

    /// The register that the words go to.
    pub fn register(&self) -> Option<u32> {
        match self.before.phase() {
            Phase::Data { register, .. } => Some(register),
            Phase::Crc => Some(register::CRC),
            _ => None,
        }
    }

    /// Whether the stream has the last word whole.
    pub fn is_whole(&self) -> bool {
        self.before.phase() == Phase::Hunting
            || self.after.phase() == Phase::Hunting
            || self.after.bytes_held() == 0
    }

    pub fn stop(&self) -> Option<u32> {
        match self.after.phase() {
            Phase::Stopped { number } => Some(number),
            _ => None,
        }
    }

    /// Where the last word begins.
    pub fn last_word(&self) -> usize {
        (self.offset + self.length).saturating_sub(WORD)
    }

    /// The last word as it stands in the stream.
    pub fn word(&self, stream: &[u8]) -> u32 {
        let bytes = stream.get(self.last_word()..).and_then(<[u8]>::first_chunk);
        bytes.map_or(0, |bytes| u32::from_be_bytes(*bytes))
    }

    /// A CRC check that passed.
    pub fn passes_check(&self) -> bool {
        self.register() == Some(register::CRC) && self.is_whole() && self.stop().is_none()
    }

    /// The word, upper half zero, that would have passed in place of a CRC word.
    pub fn passing_word(&self) -> Option<u32> {
        let crc = self.before.register(register::CRC);
        let passes = |&word: &u32| library::crc(crc, register::CRC, word) == 0;
        let is_check = self.register() == Some(register::CRC);
        is_check.then(|| (0..=u32::from(u16::MAX)).find(passes))?
    }

    /// How many words it ends; the first may have begun before it.
    pub fn words(&self) -> usize {
        (self.before.bytes_held() + self.length) / WORD
    }

    /// What its words do to the whole part, in words.
    pub fn whole_part_action(&self) -> Option<String> {
        let register = self.register().filter(|_| self.words() > 0)?;
        let command = self.after.register(register::CMD);
        if register == register::CMD && words::acts_on_whole_part(command) {
            return Some(words::command_words(command).0.to_string());
        }
        let name = words::register_name(register);
        words::is_of_whole_part(register).then(|| format!("word to {name}"))
    }
}

/// A part, and the stream that it takes.
pub struct Walk<'a> {
    pub part: Part,
    stream: &'a [u8],
    taken: usize,
    record: Record,
    zeros: Vec<u8>,
    ones: Vec<u8>,
    /// For looks ahead: what it holds is never asked.
    scratch: Vec<u8>,
    /// The last word, where it left the record as it was.
    idle: Option<[u8; WORD]>,
}

impl<'a> Walk<'a> {
    /// A part just powered on.
    pub fn new(part: Part, stream: &'a [u8]) -> Self {
        let (_, record) = Record::power_on(part.device, &mut part.memory(0));
        Self::resumed(part, record, stream)
    }

    /// A part as another stream has left it.
    pub fn resumed(part: Part, record: Record, stream: &'a [u8]) -> Self {
        Self {
            part,
            stream,
            taken: 0,
            record,
            zeros: part.memory(0),
            ones: part.memory(u8::MAX),
            scratch: part.memory(0),
            idle: None,
        }
    }

    /// The same stream once more, to the part as it was left.
    pub fn again(self) -> Self {
        Self::resumed(self.part, self.record, self.stream)
    }

    /// What the whole stream makes of a memory of zeros, from the record as it is.
    pub fn memory_left(&self) -> Vec<u8> {
        let mut memory = self.part.memory(0);
        self.record.clone().load(&mut memory, self.stream);
        memory
    }

    pub fn stream(&self) -> &'a [u8] {
        self.stream
    }

    pub fn record(&self) -> &Record {
        &self.record
    }

    fn rest(&self) -> &'a [u8] {
        &self.stream[self.taken..]
    }

    /// The bytes of the next step; none at the end or after a stop.
    fn next_length(&mut self) -> usize {
        let rest = self.rest().len();
        let to_word = WORD - self.record.bytes_held().min(WORD - 1);
        match self.record.phase() {
            Phase::Stopped { .. } => 0,
            Phase::Hunting => self.length_to_sync(),
            Phase::Data {
                register: register::FDRI | register::LOUT,
                left,
            } => {
                let words =
                    (rest.saturating_sub(to_word) / WORD).min(left.saturating_sub(1) as usize);
                rest.min(to_word + WORD * words)
            }
            Phase::Header { .. } => rest.min(to_word.max(self.idle_length())),
            _ => rest.min(to_word),
        }
    }

    /// The bytes of the next words that are like the last one, where that one changed nothing: what
    /// a word does depends on the record alone, so they change nothing either.
    fn idle_length(&self) -> usize {
        let is_like = |word: &[u8]| self.idle.is_some_and(|idle| idle == word);
        let words = self.rest().chunks_exact(WORD);
        WORD * words.take_while(|word| is_like(word)).count()
    }

    /// The bytes up to and with the next sync word, all that are left where there is none.
    fn length_to_sync(&mut self) -> usize {
        let rest = self.rest();
        // A part that never wrote CMD hunts with CMD 0 until it is synced, and with DESYNC after.
        let mut hunter = self.record.with_register(register::CMD, command::NULL);
        let (mut passed, mut look) = (0, FIRST_LOOK);
        while passed < rest.len() {
            let end = rest.len().min(passed + look);
            match self.still_hunting(&hunter, &rest[passed..end]) {
                Some(after) => hunter = after,
                None => return passed + self.first_sync(&hunter, &rest[passed..end]),
            }
            passed = end;
            look *= 2;
        }
        passed
    }

    /// A part that hunts with CMD 0 after some bytes; none where they hold a sync word.
    fn still_hunting(&mut self, hunter: &Record, bytes: &[u8]) -> Option<Record> {
        let mut after = hunter.clone();
        after.load(&mut self.scratch, bytes);
        let hunts =
            after.phase() == Phase::Hunting && after.register(register::CMD) == command::NULL;
        hunts.then_some(after)
    }

    /// The shortest beginning of the bytes that ends the hunt.
    fn first_sync(&mut self, hunter: &Record, bytes: &[u8]) -> usize {
        let (mut hunted, mut ended) = (0, bytes.len());
        while hunted + 1 < ended {
            let middle = hunted + (ended - hunted) / 2;
            match self.still_hunting(hunter, &bytes[..middle]) {
                Some(_) => hunted = middle,
                None => ended = middle,
            }
        }
        ended
    }

    /// Loads the bytes into both memories: how many were taken, and the frames that they stored.
    fn load(&mut self, bytes: &[u8]) -> (usize, FrameSet) {
        let frames = self.reached_frames();
        if !frames.is_empty() {
            self.record.clone().load(&mut self.ones, bytes);
        }
        let (_, taken) = self.record.load(&mut self.zeros, bytes);
        let stored = self.equal_frames(frames);
        // Told apart again, so that a frame that is stored once more shows.
        for frame in stored.iter() {
            let place = self.place(frame);
            self.zeros[place.clone()].fill(0);
            self.ones[place].fill(u8::MAX);
        }
        (taken as usize, stored)
    }

    fn place(&self, frame: u32) -> Range<usize> {
        let length = WORD * self.part.figures.frame_words as usize;
        let start = length * frame as usize;
        start..start + length
    }

    /// The frames that the next words may store: the current one to MFWR, any to FDRI.
    fn reached_frames(&self) -> Range<u32> {
        match self.record.phase() {
            Phase::Data {
                register: register::FDRI,
                ..
            } => 0..self.part.figures.frames,
            Phase::Data {
                register: register::MFWR,
                ..
            } => self
                .record
                .current_frame()
                .map_or(0..0, |frame| frame..frame + 1),
            _ => 0..0,
        }
    }

    /// A frame that was not stored differs in every byte, so one byte tells.
    fn equal_frames(&self, frames: Range<u32>) -> FrameSet {
        let is_equal = |&frame: &u32| {
            let first = self.place(frame).start;
            self.zeros[first] == self.ones[first]
        };
        frames.filter(is_equal).collect()
    }
}

impl Iterator for Walk<'_> {
    type Item = Step;

    fn next(&mut self) -> Option<Step> {
        let length = self.next_length();
        if length == 0 {
            return None;
        }
        let offset = self.taken;
        let before = self.record.clone();
        // A stop within the step leaves the rest of it untaken.
        let (length, stored) = self.load(&self.stream[offset..offset + length]);
        self.taken += length;
        let word = self.stream[..self.taken].last_chunk().copied();
        self.idle = word.filter(|_| self.record == before);
        Some(Step {
            offset,
            length,
            before,
            after: self.record.clone(),
            stored,
        })
    }
}
