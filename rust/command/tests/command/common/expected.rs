//! What the independent loader says of a stream, and how `check --json` must then answer.

use seamwillow_tests::harness::json::Value;
use seamwillow_tests::independent::layout::Desk;
use seamwillow_tests::independent::loader::{Phase, Record};
use seamwillow_tests::independent::names::{command, register};
use seamwillow_tests::independent::reference::{self, PARTS};
use std::collections::BTreeSet;

/// Commands that touch frames alone; 0 is NULL and 4 is RCFG.
const OF_FRAMES: [u32; 6] = [
    0,
    command::WCFG,
    command::MFWR,
    4,
    command::RCRC,
    command::DESYNC,
];
const OF_WHOLE_PART: [u32; 4] = [register::CTL, register::MASK, register::COR, register::LOUT];

/// The questions of a verdict, in its order.
pub const QUESTIONS: [&str; 8] = [
    "sync",
    "part",
    "stop",
    "whole",
    "range",
    "frames-only",
    "crc",
    "again",
];

/// What acts on the whole part: a command's code, or a register.
#[derive(Clone, Copy, PartialEq, Eq, Debug)]
enum Actor {
    Command(u32),
    Register(u32),
}

/// The words of one actor: where the first stands, and how many there are.
#[derive(Clone, PartialEq, Eq, Debug)]
struct Action {
    actor: Actor,
    offset: usize,
    count: usize,
}

/// A word that was taken, with the record before it.
struct Taken<'a> {
    before: &'a Record,
    offset: usize,
}

impl Taken<'_> {
    fn register(&self) -> Option<u32> {
        match self.before.phase {
            Phase::Data { register, .. } => Some(register),
            Phase::Crc => Some(register::CRC),
            _ => None,
        }
    }

    /// The frame that a good word stores: the last word of a frame that is not the packet's last
    /// to FDRI, the second to MFWR.
    fn stores(&self) -> Option<u32> {
        let frame_words = self.before.part().frame_words();
        match self.before.phase {
            Phase::Data {
                register: register::FDRI,
                left,
            } if left > 1 && left % frame_words == 1 => self.before.current,
            Phase::Data {
                register: register::MFWR,
                left: 1,
            } => self.before.current,
            _ => None,
        }
    }
}

/// What a stream did to a part just powered on.
#[derive(Clone, PartialEq, Eq, Debug)]
pub struct Expected {
    pub device: u32,
    pub sync: Option<usize>,
    pub stop: u32,
    pub taken: usize,
    pub stored: BTreeSet<u32>,
    /// The word that would have passed, where a check failed.
    pub passing: Option<u32>,
    pub idcode_accepted: bool,
    pub started: bool,
    ends_hunting: bool,
    /// A check passed and no frame was stored since.
    is_checked: bool,
    whole_part: Vec<Action>,
    /// What a second load does, after this one, and whether it leaves the same memory.
    again: Option<(Box<Expected>, bool)>,
}

impl Expected {
    /// A load on the independent loader, and a second one; the memory is of the part's length.
    pub fn of(device: u32, memory: &mut [u8], stream: &[u8]) -> Self {
        let (code, mut part) = Record::power_on(device, memory);
        assert_eq!(code, 0, "device {device}");
        let mut expected = Self::taken(device, &mut part, memory, stream);
        // Only a stream that passes is loaded once more.
        if expected.verdict(None) == "PASS" {
            let first = memory.to_vec();
            memory.fill(0);
            let again = Self::taken(device, &mut part, memory, stream);
            expected.again = Some((Box::new(again), first == memory));
        }
        expected
    }

    /// A load byte by byte.
    fn taken(device: u32, part: &mut Record, memory: &mut [u8], stream: &[u8]) -> Self {
        let mut expected = Self {
            device,
            sync: None,
            stop: 0,
            taken: 0,
            stored: BTreeSet::new(),
            passing: None,
            idcode_accepted: false,
            started: false,
            ends_hunting: true,
            is_checked: true,
            whole_part: Vec::new(),
            again: None,
        };
        while expected.stop == 0 && expected.taken < stream.len() {
            let word_ends = part.bytes.len() == 3;
            let before = word_ends.then(|| part.clone());
            let byte = stream[expected.taken];
            (expected.stop, _) = part.load(memory, [byte]);
            expected.taken += 1;
            if let Some(before) = &before {
                let offset = expected.taken - 4;
                expected.note(&Taken { before, offset }, part);
            }
        }
        expected.idcode_accepted = part.flags.idcode_accepted;
        expected.started = part.flags.started;
        expected.ends_hunting = part.phase == Phase::Hunting;
        expected
    }

    fn note(&mut self, word: &Taken, after: &Record) {
        if word.before.phase == Phase::Hunting {
            let is_sync = after.phase != Phase::Hunting;
            self.sync = self.sync.or(is_sync.then_some(word.offset));
            return;
        }
        if self.stop != 0 {
            let crc = word.before.registers[register::CRC as usize];
            self.passing = (self.stop == 8).then(|| reference::check_word(crc));
            return;
        }
        if let Some(frame) = word.stores() {
            self.stored.insert(frame);
            self.is_checked = false;
        }
        let command = after.registers[register::CMD as usize];
        match word.register() {
            Some(register::CRC) => self.is_checked = true,
            Some(register::CMD) if !OF_FRAMES.contains(&command) => {
                self.note_action(Actor::Command(command), word.offset);
            }
            Some(register) if OF_WHOLE_PART.contains(&register) => {
                self.note_action(Actor::Register(register), word.offset);
            }
            _ => {}
        }
    }

    fn note_action(&mut self, actor: Actor, offset: usize) {
        match self.whole_part.iter_mut().find(|it| it.actor == actor) {
            Some(action) => action.count += 1,
            None => self.whole_part.push(Action {
                actor,
                offset,
                count: 1,
            }),
        }
    }

    fn outside(&self, desk: Desk) -> BTreeSet<u32> {
        let owned = u64::from(desk.first)..desk.end();
        let is_outside = |frame: &u32| !owned.contains(&u64::from(*frame));
        self.stored.iter().copied().filter(is_outside).collect()
    }

    /// The questions that are asked, and which of them hold.
    pub fn questions(&self, desk: Option<Desk>) -> Vec<(&'static str, bool)> {
        if self.sync.is_none() {
            return vec![("sync", false)];
        }
        let is_inside = desk.is_none_or(|desk| self.outside(desk).is_empty());
        let mut holds = vec![
            true,
            self.idcode_accepted,
            self.stop == 0,
            self.ends_hunting,
            is_inside,
            self.whole_part.is_empty(),
            self.is_checked,
        ];
        let is_asked = |name: &str| desk.is_some() || !["range", "frames-only"].contains(&name);
        let asked = |holds: Vec<bool>| -> Vec<(&'static str, bool)> {
            let questions = QUESTIONS.into_iter().zip(holds);
            questions.filter(|(name, _)| is_asked(name)).collect()
        };
        if asked(holds.clone()).iter().all(|(_, holds)| *holds) {
            holds.extend(self.repeats(desk));
        }
        asked(holds)
    }

    /// Whether a second load passes and leaves the same; none where none was tried.
    fn repeats(&self, desk: Option<Desk>) -> Option<bool> {
        let (again, is_same_memory) = self.again.as_ref()?;
        let is_same = again.stored == self.stored && again.whole_part == self.whole_part;
        Some(is_same && *is_same_memory && again.verdict(desk) == "PASS")
    }

    pub fn verdict(&self, desk: Option<Desk>) -> &'static str {
        match self.questions(desk).iter().all(|(_, holds)| *holds) {
            true => "PASS",
            false => "FAIL",
        }
    }

    /// Asserts that a verdict says all this; without a desk no range was given.
    pub fn assert_told(&self, told: &Value, desk: Option<Desk>, stream: &[u8], case: &str) {
        let tell = |what: &str| format!("{case}, {what}: {told:?}\nexpected {self:?}");
        let asked = told.get("questions").list().iter();
        let asked: Vec<(&str, bool)> = asked
            .map(|it| (it.get("name").text(), it.get("holds").bool()))
            .collect();
        assert_eq!(asked, self.questions(desk), "{}", tell("questions"));
        let verdict = told.get("verdict").text();
        assert_eq!(verdict, self.verdict(desk), "{}", tell("verdict"));
        let number = |name| told.get(name).number() as usize;
        let lengths = (number("bytes"), number("taken"));
        assert_eq!(lengths, (stream.len(), self.taken), "{}", tell("taken"));
        let sync = told.get("sync_offset").given().map(Value::number);
        let expected = self.sync.map(|offset| offset as u64);
        assert_eq!(sync, expected, "{}", tell("sync"));
        self.assert_stop(told, stream, case);
        self.assert_frames(told, desk, case);
        let started = told.get("started").bool();
        assert_eq!(started, self.started, "{}", tell("started"));
    }

    fn assert_stop(&self, told: &Value, stream: &[u8], case: &str) {
        let Some(stop) = told.get("stop").given() else {
            return assert_eq!(self.stop, 0, "{case}: {told:?}");
        };
        let offset = self.taken - 4;
        let word = stream[offset..].first_chunk().copied();
        let expected = (u64::from(self.stop), offset as u64, word);
        let word = stop.get("word").word().to_be_bytes();
        let answer = (
            stop.get("number").number(),
            stop.get("offset").number(),
            Some(word),
        );
        assert_eq!(answer, expected, "{case}");
        let passing = stop.get("passing_word").given().map(Value::word);
        assert_eq!(passing, self.passing, "{case}");
    }

    fn assert_frames(&self, told: &Value, desk: Option<Desk>, case: &str) {
        assert_eq!(frames(told.get("stored")), self.stored, "{case}: stored");
        let outside = desk.map_or_else(BTreeSet::new, |desk| self.outside(desk));
        assert_eq!(frames(told.get("stored_outside")), outside, "{case}");
        let actions = told.get("whole_part_actions").list().iter();
        let numbers = |it: &Value| ["offset", "count"].map(|name| it.get(name).number() as usize);
        let actions: Vec<[usize; 2]> = actions.map(numbers).collect();
        let expected = self.whole_part.iter().map(|it| [it.offset, it.count]);
        let expected: Vec<[usize; 2]> = expected.collect();
        assert_eq!(actions, expected, "{case}: acts on the whole part");
    }
}

/// The frames of a list of runs, which rise and do not touch.
fn frames(runs: &Value) -> BTreeSet<u32> {
    let mut frames = BTreeSet::new();
    let mut free = 0;
    for run in runs.list() {
        let [first, last] = run.list() else {
            panic!("no run: {run:?}");
        };
        let (first, last) = (first.number(), last.number());
        assert!((free..=last).contains(&first), "{runs:?}");
        frames.extend((first..=last).map(|frame| frame as u32));
        free = last + 2;
    }
    frames
}

/// Memories of the eight parts, made once.
pub fn memories() -> Vec<Vec<u8>> {
    let length = |part: &reference::Part| vec![0; part.memory_bytes()];
    PARTS.iter().map(length).collect()
}

/// The frames that are the same after loads on a memory of 00 and one of FF.
pub fn stored_in_memories(device: u32, stream: &[u8]) -> BTreeSet<u32> {
    let part = &PARTS[device as usize];
    let [zeros, ones] = [0, 0xFF].map(|byte| {
        let mut memory = vec![0; part.memory_bytes()];
        let (_, mut record) = Record::power_on(device, &mut memory);
        memory.fill(byte);
        record.load(&mut memory, stream.iter().copied());
        memory
    });
    let frames = zeros.chunks(part.frame_bytes());
    let pairs = (0..).zip(frames.zip(ones.chunks(part.frame_bytes())));
    let equal = pairs.filter(|(_, (zeros, ones))| zeros == ones);
    equal.map(|(frame, _)| frame).collect()
}
