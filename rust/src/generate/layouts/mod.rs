//! Random layouts for random desks: good ones, and such with something wrong anywhere in them.

mod damage;

use crate::generate::random::Random;
use crate::independent::layout::{number, Desk, Field, MOST_STEPS};
use crate::independent::reference::{Part, PARTS};

/// What a layout is put together from.
#[derive(Clone)]
enum Piece {
    Number(Field, u64),
    Bytes(Vec<u8>),
}

/// A layout that is being put together for a desk of the part.
struct Draft<'a> {
    random: &'a mut Random,
    part: &'static Part,
    desk: Desk,
    pieces: Vec<Piece>,
}

/// A device, the smallest mostly: its frames and its memory are what a case costs.
fn some_device(random: &mut Random) -> u32 {
    match random.below(16) {
        0 => random.below(8),
        _ => 0,
    }
}

/// A desk whose frames the part has; at times it names none.
pub fn some_desk(random: &mut Random, device: u32) -> Desk {
    let whole = Desk::whole(device);
    let most = match random.below(8) {
        0..=3 => return whole,
        4 => 8,
        _ => whole.count,
    };
    let count = random.below(most + 1);
    Desk {
        device,
        first: some_start(random, whole.count - count),
        count,
    }
}

/// A start up to the last, often one of the two ends.
fn some_start(random: &mut Random, last: u32) -> u32 {
    let within = random.below(last + 1);
    random.pick(&[0, last, within, within])
}

/// A layout for some desk; most are damaged.
pub fn some(random: &mut Random) -> (Desk, Vec<u8>) {
    let device = some_device(random);
    let desk = some_desk(random, device);
    let damages = random.pick(&[0, 0, 0, 1, 1, 1, 1, 2]);
    let mut draft = Draft::good(random, desk);
    for _ in 0..damages {
        draft.damage();
    }
    (draft.desk, draft.coded())
}

/// A layout that is refused only by a desk that names no frames.
pub fn good(random: &mut Random, desk: Desk) -> Vec<u8> {
    Draft::good(random, desk).coded()
}

/// A good layout of so many steps.
pub fn of_steps(random: &mut Random, desk: Desk, steps: u32) -> Vec<u8> {
    Draft::of_steps(random, desk, steps).coded()
}

/// A layout of one step, which writes every frame of the part.
pub fn every_frame(random: &mut Random, device: u32) -> Vec<u8> {
    let desk = Desk::whole(device);
    let mut draft = Draft::begun(random, desk, 1);
    draft.frame_write(0, desk.count);
    draft.coded()
}

/// A layout whose steps have one frame each, for every place in the part.
pub fn to_every_frame(random: &mut Random, device: u32, steps: u32) -> Vec<u8> {
    let desk = Desk::whole(device);
    let mut draft = Draft::begun(random, desk, steps);
    for _ in 0..steps {
        draft.multi_frame_write(desk.count);
    }
    draft.coded()
}

/// The largest layouts of a part: every frame in one step, one frame to every place, most steps.
pub fn largest(random: &mut Random, device: u32) -> [Vec<u8>; 3] {
    [
        every_frame(random, device),
        to_every_frame(random, device, 1),
        of_steps(random, Desk::whole(device), MOST_STEPS),
    ]
}

impl<'a> Draft<'a> {
    fn good(random: &'a mut Random, desk: Desk) -> Self {
        let steps = match random.below(16) {
            0 => 0,
            1 => random.below(20),
            _ => 1 + random.below(4),
        };
        Self::of_steps(random, desk, steps)
    }

    fn of_steps(random: &'a mut Random, desk: Desk, steps: u32) -> Self {
        let mut draft = Self::begun(random, desk, steps);
        for _ in 0..steps {
            match draft.random.below(2) {
                0 => draft.some_frame_write(),
                _ => draft.some_multi_frame_write(),
            }
        }
        draft
    }

    /// A layout up to its first step.
    fn begun(random: &'a mut Random, desk: Desk, steps: u32) -> Self {
        let mut draft = Self {
            random,
            part: &PARTS[desk.device as usize],
            desk,
            pieces: Vec::new(),
        };
        draft.number(Field::Edition, 1);
        draft.number(Field::Device, desk.device);
        draft.number(Field::StepCount, steps);
        draft
    }

    fn number(&mut self, field: Field, value: u32) {
        self.pieces.push(Piece::Number(field, u64::from(value)));
    }

    fn frames(&mut self, count: u32) {
        // Small bytes are good numbers: a reader that has lost its way goes on.
        let mask = self.random.pick(&[u32::MAX, u32::MAX, 0x0303_0303]);
        let words = self.part.frame_words() * count;
        let bytes = (0..words).flat_map(|_| (self.random.next_u32() & mask).to_be_bytes());
        let bytes = bytes.collect();
        self.pieces.push(Piece::Bytes(bytes));
    }

    /// How many frames there are to choose from; for a desk that names none, one that is not its.
    fn choice(&self) -> u32 {
        self.desk.count.max(1)
    }

    /// How many frames a step names; more than a few only once in `rarely` times.
    fn some_count(&mut self, rarely: u32) -> u32 {
        let most = self.choice();
        match self.random.below(2 * rarely) {
            0 => most,
            1 => 1 + self.random.below(most),
            _ => 1 + self.random.below(most.min(4)),
        }
    }

    fn some_frame_write(&mut self) {
        let count = self.some_count(128);
        let last = self.choice() - count;
        let first = self.desk.first + some_start(self.random, last);
        self.frame_write(first, count);
    }

    fn some_multi_frame_write(&mut self) {
        let count = self.some_count(32);
        self.multi_frame_write(count);
    }

    fn frame_write(&mut self, first: u32, count: u32) {
        self.number(Field::Kind, 1);
        self.number(Field::FirstFrame, first);
        self.number(Field::FrameCount, count);
        self.frames(count);
    }

    /// One frame to so many of the frames that there are to choose from.
    fn multi_frame_write(&mut self, count: u32) {
        self.number(Field::Kind, 2);
        self.number(Field::TargetCount, count);
        self.frames(1);
        let mut left = count;
        for before in 0..self.choice() {
            // This makes every choice of rising targets as likely as any other.
            if self.random.below(self.choice() - before) < left {
                self.number(Field::Target, self.desk.first + before);
                left -= 1;
            }
        }
    }

    fn coded(&self) -> Vec<u8> {
        let coded = |piece: &Piece| match piece {
            Piece::Number(_, value) => number::coded(*value),
            Piece::Bytes(bytes) => bytes.clone(),
        };
        self.pieces.iter().map(coded).collect::<Vec<_>>().concat()
    }
}
