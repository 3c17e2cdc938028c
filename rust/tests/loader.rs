//! The proved loader against the independent one: record, memory, stop and taken all equal.

use seamwillow_tests::generate::random::{self, Random};
use seamwillow_tests::generate::{guided, memories, records};
use seamwillow_tests::harness::counts::Counts;
use seamwillow_tests::harness::sides::{assert_same, compare, End, State, INDEPENDENT, PROVED};
use seamwillow_tests::independent::loader::{Record, RECORD_BYTES};
use seamwillow_tests::independent::names::{field, flag};
use seamwillow_tests::independent::reference::{Lookups, PARTS};

const FRESH_STREAMS: u64 = 110_000;
const OTHER_STREAMS: u64 = 110_000;
const IMAGES: u64 = 200_000;

/// A device, the smallest mostly: the memory's length is what a case costs.
fn some_device(random: &mut Random) -> u32 {
    match random.below(256) {
        0 => random.below(8),
        1..=4 => 1 + random.below(2),
        _ => 0,
    }
}

/// Random memories and scratch memories of the parts, made once.
struct Memories {
    contents: Vec<Vec<u8>>,
    scratch: Vec<Vec<u8>>,
}

impl Memories {
    fn new(random: &mut Random) -> Self {
        let lengths = PARTS.iter().map(|part| part.memory_bytes());
        let mut content = |length| random.bytes(length);
        Self {
            contents: lengths.clone().map(&mut content).collect(),
            scratch: lengths.map(|length| vec![0; length]).collect(),
        }
    }

    fn state(&self, device: u32, record: Vec<u8>) -> State {
        let memory = self.contents[device as usize].clone();
        State { record, memory }
    }
}

/// What the generated streams came to, so that a generator gone shallow shows.
#[derive(Default, Debug)]
struct Coverage {
    codes: Counts<u32>,
    phases: Counts<u32>,
    stores: u32,
    starts: u32,
}

impl Coverage {
    fn note(&mut self, start: &State, end: &End) {
        self.codes.note(end.code);
        self.phases.note(end.state.word(field::PHASE));
        self.stores += u32::from(start.memory != end.state.memory);
        let started = end.state.word(field::FLAGS) & !start.word(field::FLAGS) & flag::STARTED;
        self.starts += u32::from(started != 0);
    }

    fn assert_deep(&self) {
        println!("{self:?}");
        self.codes.assert_reached(0..=10);
        self.phases.assert_reached(0..=4);
        assert!(self.stores >= 10_000 && self.starts >= 500, "{self:?}");
    }
}

/// Streams on records that `record` makes, guided from them.
fn compare_streams(seed: u64, count: u64, record: impl Fn(&mut Random, u32) -> Vec<u8>) {
    let lookups = Lookups::new();
    let mut memories = Memories::new(&mut Random::new(seed));
    let mut coverage = Coverage::default();
    for case in 0..count {
        let mut random = Random::of_case(seed, case);
        let device = some_device(&mut random);
        let start = memories.state(device, record(&mut random, device));
        let decoded = Record::decode(&start.record).expect("the record is consistent");
        let scratch = &mut memories.scratch[device as usize];
        let stream = guided::stream(&mut random, &lookups, decoded, scratch);
        let case = format!("seed {seed}, case {case}");
        let end = compare(&mut random, &start, &stream, &case);
        assert!(Record::decode(&end.state.record).is_some(), "{case}");
        coverage.note(&start, &end);
    }
    coverage.assert_deep();
}

#[test]
fn streams_on_fresh_records() {
    let fresh: Vec<State> = (0..8).map(|device| PROVED.powered(device)).collect();
    compare_streams(random::seed(5), FRESH_STREAMS, |_, device| {
        fresh[device as usize].record.clone()
    });
}

#[test]
fn streams_on_arbitrary_records() {
    compare_streams(random::seed(6), OTHER_STREAMS, records::consistent);
}

#[test]
fn arbitrary_images() {
    let seed = random::seed(7);
    let memories = Memories::new(&mut Random::new(seed));
    let mut refused = 0;
    for case in 0..IMAGES {
        let mut random = Random::of_case(seed, case);
        let device = some_device(&mut random);
        let mut record = records::damaged(&mut random, device);
        if random.one_in(256) {
            let length = random.place(RECORD_BYTES + 8);
            record.resize(length, 0);
        }
        let start = memories.state(device, record);
        let stream = [random.next_u32(), random.next_u32()].map(u32::to_be_bytes);
        let stream = &stream.as_flattened()[..random.place(8)];
        let case = format!("seed {seed}, case {case}");
        let end = compare(&mut random, &start, stream, &case);
        if end.code == 22 {
            assert!(end.state == start && end.taken == 0, "{case}");
            refused += 1;
        }
    }
    println!("{refused} of {IMAGES} images refused");
    assert!((IMAGES / 4..IMAGES * 3 / 4).contains(&refused), "{refused}");
}

fn compare_power_on(start: &State, device: u32) -> End {
    let expected = INDEPENDENT.power_on(start, device);
    let end = PROVED.power_on(start, device);
    let lengths = (start.record.len(), start.memory.len());
    assert_same(&expected, &end, || {
        format!("power-on of device {device}, lengths {lengths:?}")
    });
    end
}

#[test]
fn power_on() {
    let mut random = Random::new(random::seed(8));
    for (device, part) in (0..).zip(&PARTS) {
        let right = part.memory_bytes();
        let start = State::junk(&mut random, RECORD_BYTES, right);
        let end = compare_power_on(&start, device);
        assert_eq!(end.code, 0, "{}", part.name);
        assert!(end.state.memory.iter().all(|&byte| byte == 0));
        assert!(end.state.record[4..].iter().all(|&byte| byte == 0));
        assert_eq!(end.state.word(field::DEVICE), device);
    }
}

#[test]
fn refused_power_on() {
    let mut random = Random::new(random::seed(9));
    for device in [0, 1, 7, 8, 9, 255, u32::MAX] {
        let known = device.min(7);
        let mut lengths = memories::wrong_lengths(known);
        if device > 7 {
            lengths.push(PARTS[known as usize].memory_bytes());
        }
        for length in lengths {
            let start = State::junk(&mut random, RECORD_BYTES, length);
            let end = compare_power_on(&start, device);
            assert_eq!(end.code, if device > 7 { 21 } else { 23 });
            assert!(end.state.memory == start.memory);
            assert!(end.state.record.iter().all(|&byte| byte == 0));
        }
        for record_length in [0, 1, 944, 947, 949, 952, 2 * RECORD_BYTES] {
            let start = State::junk(&mut random, record_length, 54_464);
            let end = compare_power_on(&start, device);
            assert!(end.code == 22 && end.state == start, "{record_length}");
        }
    }
}

#[test]
fn refused_loads() {
    let seed = random::seed(10);
    let mut random = Random::new(seed);
    let stream = [0xFF, 0xAA, 0x99, 0x55, 0x66, 0x30];
    for case in 0..200 {
        let case = format!("seed {seed}, case {case}");
        let device = random.below(3);
        let mut start = State::junk(&mut random, 0, 54_464);
        start.record = records::consistent(&mut random, device);
        let right = PARTS[device as usize].memory_bytes();
        for length in memories::wrong_lengths(device) {
            start.memory.resize(length, 0xA5);
            // Also on a stopped record: 23 comes before its number.
            let end = compare(&mut random, &start, &stream, &case);
            assert_eq!((end.code, end.taken), (23, 0), "{case}");
            assert!(end.state == start, "{case}");
        }
        start.record[3] = 8;
        for length in [right, 0] {
            start.memory.resize(length, 0);
            let end = compare(&mut random, &start, &stream, &case);
            assert_eq!((end.code, end.taken), (22, 0), "{case}");
        }
    }
}
