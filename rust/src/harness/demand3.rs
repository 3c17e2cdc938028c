//! Demand 3 on single cases: what a compiled stream leaves of a record that hunts and of a memory.

use crate::generate::random::Random;
use crate::generate::{layouts, memories, records};
use crate::harness::compiler_sides::CompilerSide;
use crate::harness::counts::Counts;
use crate::harness::sides::{End, State};
use crate::independent::layout::{self, answer, Desk};
use crate::independent::loader::Record;
use crate::independent::names::{field, phase, register};
use crate::independent::reference::PARTS;

/// A layout that the desk accepts, and the record and the memory before its stream is loaded.
pub struct Case<'a> {
    pub name: &'a str,
    pub desk: Desk,
    pub layout: &'a [u8],
    pub start: &'a State,
}

impl Case<'_> {
    /// Asserts that the stream was taken whole, that the record hunts with no bytes remembered and
    /// that the memory is what the reference machine makes of it.
    pub fn assert_done(&self, end: &End) {
        let name = self.name;
        let mut memory = self.start.memory.clone();
        let applied = layout::apply(self.desk, self.layout, &mut memory);
        let length = applied.expect("the layout is accepted");
        assert_eq!((end.code, end.taken), (0, length), "{name}");
        assert!(end.state.memory == memory, "{name}, another memory");
        self.assert_kept_outside(&end.state);
        // All zero: hunting, no packet open and no bytes.
        let place = field::PHASE..field::CURRENT;
        let words: Vec<u32> = place.map(|index| end.state.word(index)).collect();
        assert_eq!(words, [0; 6], "{name}");
        assert!(Record::decode(&end.state.record).is_some(), "{name}");
    }

    /// Asserts that the frames that the desk does not name are as they were.
    pub fn assert_kept_outside(&self, after: &State) {
        let frame_bytes = PARTS[self.desk.device as usize].frame_bytes();
        let first = frame_bytes * self.desk.first as usize;
        let end = frame_bytes * self.desk.end() as usize;
        let (before, after) = (&self.start.memory, &after.memory);
        assert!(after[..first] == before[..first], "{}", self.name);
        assert!(after[end..] == before[end..], "{}", self.name);
    }
}

/// A record that hunts, arbitrary but consistent, with a memory of the junk.
pub fn hunting(random: &mut Random, device: u32, junk: &[u8]) -> State {
    State {
        record: records::in_phase(random, device, phase::HUNTING),
        memory: junk[..PARTS[device as usize].memory_bytes()].to_vec(),
    }
}

/// What the layouts, the records and the parts were, so that a generator gone shallow shows.
#[derive(Default, Debug)]
struct Coverage {
    accepted: u32,
    refused: Counts<u32>,
    devices: Counts<u32>,
    commands: Counts<u32>,
    byte_counts: Counts<u32>,
}

impl Coverage {
    fn note(&mut self, start: &State) {
        self.accepted += 1;
        self.devices.note(start.word(field::DEVICE));
        self.commands
            .note(start.word(field::register(register::CMD)));
        self.byte_counts.note(start.word(field::BYTE_COUNT));
    }

    fn assert_deep(&self) {
        println!("{self:?}");
        self.refused.assert_reached(41..=47);
        self.devices.assert_reached(0..8);
        self.commands.assert_reached(0..14);
        self.byte_counts.assert_reached(0..4);
    }
}

/// Compiles layouts, and lets the stream of each accepted one be checked on a record that hunts.
fn check_all(
    seed: u64,
    side: &CompilerSide,
    cases: impl Iterator<Item = (Random, Desk, Vec<u8>)>,
    check: impl Fn(&mut Random, &Case, &[u8]),
) -> Coverage {
    let junk = memories::junk(&mut Random::new(seed));
    let mut coverage = Coverage::default();
    for (index, (mut random, desk, layout)) in cases.enumerate() {
        let Some(stream) = side.compiled(desk, &layout) else {
            let (code, _) = answer(layout::check(desk, &layout));
            coverage.refused.note(code);
            continue;
        };
        let start = hunting(&mut random, desk.device, &junk);
        let case = Case {
            name: &format!("seed {seed}, case {index}"),
            desk,
            layout: &layout,
            start: &start,
        };
        check(&mut random, &case, &stream);
        coverage.note(&start);
    }
    coverage
}

/// Checks a compiler's streams of generated layouts, of which there are so many.
pub fn check_generated(
    seed: u64,
    layouts: u64,
    side: &CompilerSide,
    check: impl Fn(&mut Random, &Case, &[u8]),
) {
    let cases = (0..layouts).map(|case| {
        let mut random = Random::of_case(seed, case);
        let (desk, layout) = layouts::some(&mut random);
        (random, desk, layout)
    });
    check_all(seed, side, cases, check).assert_deep();
}

/// Checks a compiler's streams of each part's largest layouts.
pub fn check_largest(seed: u64, side: &CompilerSide, check: impl Fn(&mut Random, &Case, &[u8])) {
    let cases = (0..8).flat_map(|device| {
        let mut random = Random::of_case(seed, device.into());
        layouts::largest(&mut random, device).map(|layout| {
            let random = Random::new(random.next_u32().into());
            (random, Desk::whole(device), layout)
        })
    });
    let coverage = check_all(seed, side, cases, check);
    // Three of each part.
    assert_eq!(coverage.accepted, 24);
}
