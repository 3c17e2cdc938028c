//! Generated and damaged streams, judged by the built command: every verdict is what the
//! independent loader makes of the stream.

use crate::common::expected::{memories, stored_in_memories, Expected, QUESTIONS};
use crate::common::{Scratch, Told};
use seamwillow_tests::generate::random::{self, Random};
use seamwillow_tests::generate::{guided, layouts};
use seamwillow_tests::harness::compiler_sides::INDEPENDENT;
use seamwillow_tests::harness::counts::Counts;
use seamwillow_tests::harness::json::Value;
use seamwillow_tests::independent::layout::Desk;
use seamwillow_tests::independent::loader::{Phase, Record};
use seamwillow_tests::independent::names::{command, register};
use seamwillow_tests::independent::reference::{self, LOOKUPS, PARTS};
use seamwillow_tests::independent::stream::{write_header, Stream};

/// Streams of each of the four tests on many; they are judged so many in a run.
const STREAMS: usize = 5000;
const IN_A_RUN: usize = 25;
/// Streams that come alone, on standard input.
const ALONE: u64 = 500;
/// Streams for which no part is named.
const UNNAMED: u64 = 400;
/// Words after which a stream is left without an end.
const MOST_TO_END: usize = 500;
/// One stream in so many is also loaded on two memories, to see what is stored.
const IN_MEMORIES: u32 = 16;

/// A stream for a desk; the scratch memory is of its part's length.
type Generate = fn(&mut Random, Desk, &mut [u8]) -> Vec<u8>;

/// A device, the smallest mostly: its frames and its memory are what a case costs.
fn some_device(random: &mut Random) -> u32 {
    match random.below(32) {
        0 => random.below(8),
        1..=3 => 1 + random.below(2),
        _ => 0,
    }
}

/// A random stream that follows the part, at times another part than the desk's.
fn followed(random: &mut Random, desk: Desk, memory: &mut [u8]) -> Vec<u8> {
    if random.one_in(32) {
        let other = random.below(3);
        let mut memory = vec![0; PARTS[other as usize].memory_bytes()];
        let (_, fresh) = Record::power_on(other, &mut memory);
        return guided::stream(random, &LOOKUPS, fresh, &mut memory);
    }
    let (_, fresh) = Record::power_on(desk.device, memory);
    // At times no stream at all.
    if random.one_in(100) {
        let length = random.place(1000);
        return random.bytes(length);
    }
    let mut stream = match random.one_in(2) {
        true => Vec::new(),
        false => settled(),
    };
    let mut part = fresh.clone();
    part.load(memory, stream.iter().copied());
    stream.extend(guided::stream(random, &LOOKUPS, part, memory));
    if !random.one_in(4) {
        end(random, fresh, memory, &mut stream);
    }
    stream
}

/// A beginning after which CMD, the CRC and the current frame are the same on every part, so that a
/// second load often does the same.
fn settled() -> Vec<u8> {
    let mut stream = Stream::synced();
    stream.command(command::RCRC).write(register::FAR, &[0]);
    stream.into_bytes()
}

/// Leads a part out of its packets to where it waits for sync, mostly by a check; from a packet of
/// very many words it does not.
fn end(random: &mut Random, mut part: Record, memory: &mut [u8], stream: &mut Vec<u8>) {
    part.load(memory, stream.iter().copied());
    let mut is_checked = random.one_in(4);
    for _ in 0..MOST_TO_END {
        let check = reference::check_word(part.registers[register::CRC as usize]);
        let words = match part.phase {
            Phase::Hunting | Phase::Stopped(_) => return,
            Phase::Header(_) if is_checked => {
                vec![write_header(register::CMD, 1), command::DESYNC]
            }
            Phase::Header(_) => {
                is_checked = true;
                vec![write_header(register::CRC, 1), check]
            }
            Phase::Data { register, .. } => vec![match register {
                register::CRC => check,
                register::IDCODE => part.part().idcode,
                register::FLR => part.part().frame_words() - 1,
                _ => 0,
            }],
            Phase::Crc => vec![check],
        };
        let bytes = words.iter().flat_map(|word| word.to_be_bytes());
        // The stream may end within a word.
        let bytes: Vec<u8> = bytes.skip(part.bytes.len()).collect();
        part.load(memory, bytes.iter().copied());
        stream.extend(bytes);
    }
}

/// A layout's stream, good or damaged, at times for frames that are not the desk's.
fn compiled(random: &mut Random, desk: Desk, _: &mut [u8]) -> Vec<u8> {
    let whole = Desk::whole(desk.device);
    let written = if random.one_in(4) { whole } else { desk };
    let layout = layouts::good(random, written);
    let stream = INDEPENDENT.compiled(written, &layout);
    // A desk that names no frames refuses what has a step.
    let mut stream = stream.unwrap_or_default();
    if random.one_in(2) {
        guided::spoil(random, &mut stream);
    }
    stream
}

/// What the streams came to, so that a generator gone shallow shows.
#[derive(Default, Debug)]
struct Coverage {
    verdicts: Counts<&'static str>,
    stops: Counts<u32>,
    failing: Counts<&'static str>,
    devices: Counts<u32>,
}

impl Coverage {
    fn note(&mut self, expected: &Expected, range: Option<Desk>) {
        self.verdicts.note(expected.verdict(range));
        self.stops.note(expected.stop);
        self.devices.note(expected.device);
        for (name, holds) in expected.questions(range) {
            if !holds {
                self.failing.note(name);
            }
        }
    }

    /// Asserts that both verdicts, the stops and the failing questions were met so many times.
    /// A layout's stream does the same again, so of those the last question asks nothing.
    fn assert_deep(&self, verdicts: u32, stops: u32, (questions, failing): (usize, u32)) {
        println!("{self:?}");
        for verdict in ["PASS", "FAIL"] {
            let met = self.verdicts.of(&verdict);
            assert!(met >= verdicts, "{verdict}: {self:?}");
        }
        for stop in 0..=10 {
            assert!(self.stops.of(&stop) >= stops, "stop {stop}: {self:?}");
        }
        for name in QUESTIONS.into_iter().take(questions) {
            assert!(self.failing.of(&name) >= failing, "{name}: {self:?}");
        }
    }
}

/// Streams for one desk, whose range may not be named.
struct Batch {
    desk: Desk,
    range: Option<Desk>,
    streams: Vec<Vec<u8>>,
}

impl Batch {
    /// One stream, for some part.
    fn of_one(random: &mut Random, memories: &mut [Vec<u8>]) -> Self {
        let generate: Generate = random.pick(&[followed, compiled]);
        let device = some_device(random);
        Self::some(
            random,
            &mut memories[device as usize],
            device,
            (1, generate),
        )
    }

    fn some(
        random: &mut Random,
        memory: &mut [u8],
        device: u32,
        (count, generate): (usize, Generate),
    ) -> Self {
        let desk = layouts::some_desk(random, device);
        let range = (!random.one_in(4)).then_some(desk);
        let streams = (0..count).map(|_| generate(random, desk, memory));
        let streams = streams.collect();
        Self {
            desk,
            range,
            streams,
        }
    }

    /// The command line up to the files.
    fn arguments(&self) -> Vec<String> {
        let part = PARTS[self.desk.device as usize].name;
        let mut words = format!("check --json --part {part}");
        if let Some(Desk { first, count, .. }) = self.range {
            words += &format!(" --frames {first}:{count}");
        }
        words.split(' ').map(str::to_string).collect()
    }

    /// What the independent loader says of a stream, after the verdict was held against it.
    fn judged(&self, told: &Value, stream: &[u8], memory: &mut [u8], case: &str) -> Expected {
        let device = self.desk.device;
        let expected = Expected::of(device, memory, stream);
        expected.assert_told(told, self.range, stream, case);
        let part = PARTS[device as usize].name;
        assert_eq!(told.get("part").text(), part, "{case}");
        let range = told.get("range").given();
        let range = range.map(|it| (it.get("first").number(), it.get("count").number()));
        let named = |desk: Desk| (u64::from(desk.first), u64::from(desk.count));
        assert_eq!(range, self.range.map(named), "{case}");
        expected
    }
}

/// The verdicts of a run, which has a status for them and nothing on standard error.
fn verdicts(told: &Told, case: &str) -> Vec<Value> {
    let verdicts = Value::of(&told.text()).list().to_vec();
    let all_pass = verdicts.iter().all(|it| it.get("verdict").text() == "PASS");
    let answer = (told.status, told.err.as_str());
    assert_eq!(answer, (i32::from(!all_pass), ""), "{case}");
    verdicts
}

fn judge_many(name: &str, fixed_seed: u64, generate: Generate) -> Coverage {
    let seed = random::seed(fixed_seed);
    let scratch = Scratch::new(name);
    let mut memories = memories();
    let mut coverage = Coverage::default();
    let names: Vec<String> = (0..IN_A_RUN).map(|number| number.to_string()).collect();
    for run in 0..STREAMS / IN_A_RUN {
        let mut random = Random::of_case(seed, run as u64);
        // Every part has its run.
        let device = match run {
            0..8 => run as u32,
            _ => some_device(&mut random),
        };
        let memory = &mut memories[device as usize];
        let batch = Batch::some(&mut random, memory, device, (IN_A_RUN, generate));
        for (name, stream) in names.iter().zip(&batch.streams) {
            scratch.write(name, stream);
        }
        let arguments = batch.arguments().into_iter().chain(names.clone());
        let told = Told::of(scratch.command(arguments));
        let case = format!("seed {seed}, run {run}");
        let verdicts = verdicts(&told, &case);
        assert_eq!(verdicts.len(), IN_A_RUN, "{case}");
        for ((verdict, stream), name) in verdicts.iter().zip(&batch.streams).zip(&names) {
            let case = format!("{case}, stream {name}");
            assert_eq!(verdict.get("file").text(), name, "{case}");
            let expected = batch.judged(verdict, stream, memory, &case);
            if random.one_in(IN_MEMORIES) {
                let stored = stored_in_memories(device, stream);
                assert_eq!(stored, expected.stored, "{case}");
            }
            coverage.note(&expected, batch.range);
        }
    }
    coverage
}

#[test]
fn followed_streams() {
    judge_many("followed", 101, followed).assert_deep(200, 10, (8, 50));
}

#[test]
fn more_followed_streams() {
    judge_many("more-followed", 102, followed).assert_deep(200, 10, (8, 50));
}

#[test]
fn compiled_streams() {
    judge_many("compiled", 103, compiled).assert_deep(2000, 0, (7, 5));
}

#[test]
fn more_compiled_streams() {
    judge_many("more-compiled", 104, compiled).assert_deep(2000, 0, (7, 5));
}

#[test]
fn streams_alone_on_standard_input() {
    let seed = random::seed(105);
    let scratch = Scratch::new("alone");
    let mut memories = memories();
    let mut coverage = Coverage::default();
    for case in 0..ALONE {
        let mut random = Random::of_case(seed, case);
        let batch = Batch::of_one(&mut random, &mut memories);
        let [stream] = batch.streams.as_slice() else {
            panic!("a batch of one");
        };
        let arguments = batch.arguments().into_iter().chain(["-".to_string()]);
        let told = Told::of_input(scratch.command(arguments), stream);
        let case = format!("seed {seed}, case {case}");
        let verdicts = verdicts(&told, &case);
        let [verdict] = verdicts.as_slice() else {
            panic!("{case}: {verdicts:?}");
        };
        assert_eq!(verdict.get("file").text(), "standard input", "{case}");
        let memory = &mut memories[batch.desk.device as usize];
        let expected = batch.judged(verdict, stream, memory, &case);
        coverage.note(&expected, batch.range);
    }
    coverage.assert_deep(50, 0, (8, 1));
}

/// The part that accepts the stream's IDCODE, or else the first that takes most of it.
fn of_stream(memories: &mut [Vec<u8>], stream: &[u8]) -> Expected {
    let parts = (0..).zip(memories);
    let tried = parts.map(|(device, memory)| Expected::of(device, memory, stream));
    let mut tried: Vec<Expected> = tried.collect();
    let furthest = |it: &Expected| (it.idcode_accepted, it.taken);
    let best = tried.iter().map(furthest).max();
    let place = tried.iter().position(|it| Some(furthest(it)) == best);
    tried.swap_remove(place.expect("there are parts"))
}

#[test]
fn streams_without_a_named_part() {
    let seed = random::seed(106);
    let scratch = Scratch::new("unnamed");
    let mut memories = memories();
    let mut coverage = Coverage::default();
    for case in 0..UNNAMED {
        let mut random = Random::of_case(seed, case);
        let batch = Batch::of_one(&mut random, &mut memories);
        let case = format!("seed {seed}, case {case}");
        for stream in &batch.streams {
            let told = Told::of_input(scratch.command(["check", "--json", "-"]), stream);
            let verdicts = verdicts(&told, &case);
            let expected = of_stream(&mut memories, stream);
            expected.assert_told(&verdicts[0], None, stream, &case);
            let part = PARTS[expected.device as usize].name;
            let named = expected.idcode_accepted.then_some(part);
            let told = verdicts[0].get("part").given().map(Value::text);
            assert_eq!(told, named, "{case}");
            coverage.note(&expected, None);
        }
    }
    println!("{coverage:?}");
    assert!(coverage.verdicts.of(&"PASS") >= 50, "{coverage:?}");
    assert!(coverage.failing.of(&"part") >= 20, "{coverage:?}");
}
