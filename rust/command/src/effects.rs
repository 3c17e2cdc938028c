//! What a stream does to a part: where it syncs and stops, what it stores, what it acts on.

use crate::part::Part;
use crate::runs::FrameSet;
use crate::walk::{Step, Walk};
use crate::words::{self, counted, register};
use seamwillow_library::record::{Phase, Record};
use std::fmt;

/// Stops whose words are followed by more of what is known.
const WRONG_IDCODE: u32 = 4;
const TOO_EARLY: u32 = 6;

/// A word at which the part stopped.
#[derive(Clone, Debug)]
pub struct Stop {
    pub number: u32,
    /// Where the bad word begins.
    pub offset: usize,
    /// The bad word, where the stream has all of it.
    pub word: u32,
    /// The word that would have passed, where a check failed.
    pub passing: Option<u32>,
    /// What frame data waits for, as it stood, where the data came too early.
    pub state: Option<String>,
}

impl Stop {
    /// The stop that a step ended with.
    pub fn of(step: &Step, number: u32, stream: &[u8]) -> Self {
        Self {
            number,
            offset: step.last_word(),
            word: step.word(stream),
            passing: step.passing_word(),
            state: (number == TOO_EARLY).then(|| state_words(&step.before)),
        }
    }

    /// The IDCODE that the part did not take for its own.
    pub fn wrong_idcode(&self) -> Option<u32> {
        (self.number == WRONG_IDCODE).then_some(self.word)
    }
}

/// What a part must have before frame data may come.
fn state_words(record: &Record) -> String {
    let flags = record.flags();
    let no = |holds: bool| if holds { "" } else { "no " };
    let frame = if flags.buffer_valid { "a" } else { "no" };
    let (command, _) = words::command_words(record.register(register::CMD));
    format!(
        "{}IDCODE and {}FLR accepted, CMD is {command}, {frame} frame loaded",
        no(flags.idcode_accepted),
        no(flags.flr_accepted)
    )
}

impl fmt::Display for Stop {
    fn fmt(&self, out: &mut fmt::Formatter) -> fmt::Result {
        let (number, offset) = (self.number, self.offset);
        let meaning = words::meaning(number);
        write!(out, "stop {number} at offset {offset}: {meaning}")?;
        if let Some(state) = &self.state {
            write!(out, " ({state})")?;
        }
        write!(out, "; {:08X} stands there", self.word)?;
        match self.passing {
            Some(passing) => write!(out, ", {passing:08X} would have passed"),
            None => Ok(()),
        }
    }
}

/// Words that act on more than frames, all of one kind.
#[derive(Clone, PartialEq, Eq, Debug)]
pub struct WholePartAction {
    pub what: String,
    /// Where the first of them stands.
    pub offset: usize,
    pub count: usize,
}

/// What a stream did, from its first byte to its end or stop.
#[derive(Debug)]
pub struct Effects {
    pub length: usize,
    /// Where the first sync word begins.
    pub sync: Option<usize>,
    pub idcode_accepted: bool,
    pub started: bool,
    pub end: Phase,
    /// The bytes that are taken, a bad word's among them.
    pub taken: usize,
    /// Where the part began to wait for sync for the last time.
    pub waits_from: usize,
    pub stop: Option<Stop>,
    pub stored: FrameSet,
    /// Where the last step that stored a frame begins.
    pub last_store: Option<usize>,
    /// Where the first check that passed after it stands.
    pub check_after: Option<usize>,
    /// What acts on the whole part, each kind once.
    pub whole_part: Vec<WholePartAction>,
}

impl Effects {
    /// Bytes through which a part only hunts.
    pub fn of_hunting(length: usize) -> Self {
        Self {
            length,
            sync: None,
            idcode_accepted: false,
            started: false,
            end: Phase::Hunting,
            taken: length,
            waits_from: 0,
            stop: None,
            stored: FrameSet::default(),
            last_store: None,
            check_after: None,
            whole_part: Vec::new(),
        }
    }

    /// What a stream does to a part, which is then as the stream leaves it.
    pub fn of(walk: &mut Walk) -> Self {
        let stream = walk.stream();
        let mut effects = Self::of_hunting(stream.len());
        for step in walk.by_ref() {
            effects.note(&step, stream);
        }
        let flags = walk.record().flags();
        effects.idcode_accepted = flags.idcode_accepted;
        effects.started = flags.started;
        effects
    }

    fn note(&mut self, step: &Step, stream: &[u8]) {
        let (before, after) = (step.before.phase(), step.after.phase());
        self.end = after;
        self.taken = step.offset + step.length;
        if step.is_sync() && self.sync.is_none() {
            self.sync = Some(step.last_word());
        }
        if before != Phase::Hunting && after == Phase::Hunting {
            self.waits_from = self.taken;
        }
        self.note_stores(step);
        if let Phase::Stopped { number } = after {
            self.stop = Some(Stop::of(step, number, stream));
            return;
        }
        if step.passes_check() && self.last_store.is_some() && self.check_after.is_none() {
            self.check_after = Some(step.offset);
        }
        if let Some(what) = step.whole_part_action() {
            self.note_action(what, step);
        }
    }

    fn note_action(&mut self, what: String, step: &Step) {
        let (offset, count) = (step.offset, step.words());
        match self.whole_part.iter_mut().find(|it| it.what == what) {
            Some(action) => action.count += count,
            None => self.whole_part.push(WholePartAction {
                what,
                offset,
                count,
            }),
        }
    }

    fn note_stores(&mut self, step: &Step) {
        if !step.stored.is_empty() {
            self.stored.extend(&step.stored);
            self.last_store = Some(step.offset);
            self.check_after = None;
        }
    }

    /// The frames that are stored, in words.
    pub fn told(&self) -> String {
        let stored = &self.stored;
        let count = counted(stored.len() as u64, "frame");
        match (stored.is_empty(), &self.stop) {
            (true, _) => "stores no frame".to_string(),
            (false, None) => format!("stores {count}: {stored}"),
            (false, Some(_)) => format!("already overwritten at the stop, {count}: {stored}"),
        }
    }

    /// The bytes after the place from which the part only waited for sync.
    pub fn follows(&self) -> usize {
        match self.end {
            Phase::Hunting => self.length - self.waits_from,
            _ => self.length - self.taken,
        }
    }
}

/// A part taken for the stream's, and whether the stream's own IDCODE says so.
#[derive(Clone, Copy)]
pub struct StreamPart {
    pub part: Part,
    pub is_named: bool,
    taken: usize,
}

impl StreamPart {
    /// The part that accepts the stream's IDCODE, or else the one that takes most of it; none where
    /// there is no sync word.
    pub fn of(stream: &[u8]) -> Option<Self> {
        // The hunt is the same for every part.
        let sync = Walk::new(Part::of(0)?, stream).find(Step::is_sync)?;
        let packets = &stream[sync.last_word()..];
        let tried: Vec<Self> = Part::all().map(|part| Self::tried(part, packets)).collect();
        let named = tried.iter().find(|it| it.is_named);
        named
            .or(tried.iter().rev().max_by_key(|it| it.taken))
            .copied()
    }

    /// The desk names the part, whatever the stream says.
    pub fn given(part: Part) -> Self {
        Self {
            part,
            is_named: true,
            taken: 0,
        }
    }

    fn tried(part: Part, stream: &[u8]) -> Self {
        let mut memory = part.memory(0);
        let (_, mut record) = Record::power_on(part.device, &mut memory);
        let (_, taken) = record.load(&mut memory, stream);
        Self {
            part,
            // Once accepted it stays so until power-on.
            is_named: record.flags().idcode_accepted,
            taken: taken as usize,
        }
    }
}
