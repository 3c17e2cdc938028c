//! Demand 3 by running: streams of the proved compiler in both loaders, and the proved library's
//! reconfiguration, on arbitrary records that hunt.

use seamwillow_tests::generate::random::{self, Random};
use seamwillow_tests::generate::{layouts, memories, records};
use seamwillow_tests::harness::compiler_sides::{compare_calls, some_room, Call, PROVED};
use seamwillow_tests::harness::counts::Counts;
use seamwillow_tests::harness::demand3::{check_generated, check_largest, hunting, Case};
use seamwillow_tests::harness::sides::{self, compare, State};
use seamwillow_tests::independent::layout::{self, Desk};
use seamwillow_tests::independent::names::{field, phase};

const LAYOUTS: u64 = 60_000;
const PREFIXES: u64 = 40_000;
const CALLS: u64 = 80_000;
const SEQUENCES: u64 = 4_000;

/// Those that a reconfiguration gives.
const NUMBERS: [u32; 17] = [
    0, 22, 23, 24, 32, 33, 34, 35, 36, 37, 41, 42, 43, 44, 45, 46, 47,
];

/// Loads a stream on both sides, whole and in pieces, and asserts demand 3.
fn assert_done(random: &mut Random, case: &Case, stream: &[u8]) {
    let end = compare(random, case.start, stream, case.name);
    case.assert_done(&end);
}

#[test]
fn generated_layouts() {
    check_generated(random::seed(30), LAYOUTS, &PROVED, assert_done);
}

#[test]
fn the_largest_layouts() {
    check_largest(random::seed(31), &PROVED, assert_done);
}

#[test]
fn a_stream_cut_short_stays_within_the_range() {
    check_generated(
        random::seed(32),
        PREFIXES,
        &PROVED,
        |random, case, stream| {
            let prefix = &stream[..random.place(stream.len())];
            let end = sides::PROVED.load(case.start, prefix);
            let answer = (end.code, end.taken);
            assert_eq!(answer, (0, prefix.len() as u64), "{}", case.name);
            case.assert_kept_outside(&end.state);
        },
    );
}

#[test]
fn streams_one_after_another() {
    let seed = random::seed(33);
    let junk = memories::junk(&mut Random::new(seed));
    let mut joined = 0;
    for case in 0..SEQUENCES {
        let mut random = Random::of_case(seed, case);
        let device = random.below(3);
        let start = hunting(&mut random, device, &junk);
        let mut memory = start.memory.clone();
        let mut streams = Vec::new();
        for _ in 0..2 + random.below(2) {
            let desk = layouts::some_desk(&mut random, device);
            let layout = layouts::good(&mut random, desk);
            // A desk that names no frames refuses it.
            if layout::apply(desk, &layout, &mut memory).is_ok() {
                streams.extend(PROVED.compiled(desk, &layout));
            }
        }
        joined += u64::from(streams.len() > 1);
        let streams = streams.concat();
        let case = format!("seed {seed}, case {case}");
        let end = compare(&mut random, &start, &streams, &case);
        assert_eq!((end.code, end.taken), (0, streams.len() as u64), "{case}");
        assert!(end.state.memory == memory, "{case}");
    }
    println!("{joined} of {SEQUENCES} sequences of two streams or more");
    assert!(joined > SEQUENCES / 2, "{joined}");
}

/// A call with a generated layout, and what its desk is by the record's device.
fn some_call(random: &mut Random, junk: &[u8]) -> (Call, Desk) {
    let (desk, layout) = layouts::some(random);
    // The record is of a part even where the layout's is unknown.
    let device = desk.device % 8;
    let desk = Desk { device, ..desk };
    let record = match random.below(8) {
        0 => records::damaged(random, device),
        1 => records::consistent(random, device),
        _ => records::in_phase(random, device, phase::HUNTING),
    };
    let memory = junk[..memories::some_length(random, device)].to_vec();
    let room = some_room(random, layout::check(desk, &layout));
    let call = Call {
        state: State { record, memory },
        range: [desk.first, desk.count],
        layout,
        output: random.bytes(room),
    };
    (call, desk)
}

#[test]
fn generated_calls() {
    let seed = random::seed(34);
    let junk = memories::junk(&mut Random::new(seed));
    let mut numbers = Counts::default();
    let mut devices = Counts::default();
    for case in 0..CALLS {
        let (call, desk) = some_call(&mut Random::of_case(seed, case), &junk);
        let name = format!("seed {seed}, case {case}");
        let done = compare_calls(&call, &name);
        numbers.note(done.end.code);
        if done.end.code != 0 {
            continue;
        }
        let case = Case {
            name: &name,
            desk,
            layout: &call.layout,
            start: &call.state,
        };
        case.assert_done(&done.end);
        let stream = PROVED.compiled(desk, &call.layout);
        let stream = stream.expect("the layout is accepted");
        let kept = &call.output[stream.len()..];
        assert!(done.output == [&stream, kept].concat(), "{name}");
        devices.note(desk.device);
    }
    println!("{numbers:?}, done on parts {devices:?}");
    numbers.assert_reached(NUMBERS);
    devices.assert_reached(0..8);
}

/// A call that has nothing wrong with it, and an output of just the stream's length.
fn good_call(random: &mut Random, device: u32, junk: &[u8]) -> Call {
    let desk = Desk::whole(device);
    let layout = layouts::of_steps(random, desk, 2);
    let needed = layout::check(desk, &layout).expect("the layout is accepted");
    Call {
        state: hunting(random, device, junk),
        range: [0, desk.count],
        layout,
        output: random.bytes(needed as usize),
    }
}

/// Makes the record inconsistent in any phase.
fn spoil_record(random: &mut Random, call: &mut Call) {
    let record = &mut call.state.record;
    match random.below(4) {
        0 => record.truncate(random.pick(&[0, 4, 944, 947])),
        1 => record.push(0),
        2 => record[4 * field::DEVICE + 3] = 8,
        _ => record[4 * field::CRC] = 1,
    }
}

fn spoil_memory(random: &mut Random, call: &mut Call) {
    let device = call.state.word(field::DEVICE);
    let length = random.pick(&memories::wrong_lengths(device));
    call.state.memory.resize(length, 0xA5);
}

fn leave_hunting(random: &mut Random, call: &mut Call) {
    let device = call.state.word(field::DEVICE);
    let phase = random.pick(&[phase::HEADER, phase::DATA, phase::CRC, phase::STOPPED]);
    call.state.record = records::in_phase(random, device, phase);
}

fn move_range(random: &mut Random, call: &mut Call) {
    let [_, frames] = call.range;
    call.range = random.pick(&[
        [1, frames],
        [0, frames + 1],
        [frames + 1, 0],
        [1, u32::MAX],
        [u32::MAX, 1],
    ]);
}

/// Makes the layout another part's.
fn spoil_layout(_: &mut Random, call: &mut Call) {
    call.layout[1] ^= 1;
}

fn shorten_output(random: &mut Random, call: &mut Call) {
    let last = call.output.len() - 1;
    let within = random.place(last);
    call.output.truncate(random.pick(&[0, within, last, last]));
}

type Spoil = fn(&mut Random, &mut Call);

/// What can be wrong with a call, with its number, in the order in which it is told.
const FAULTS: [(u32, Spoil); 6] = [
    (22, spoil_record),
    (23, spoil_memory),
    (24, leave_hunting),
    (37, move_range),
    (33, spoil_layout),
    (36, shorten_output),
];

#[test]
fn refusals_in_their_order() {
    let seed = random::seed(35);
    let junk = memories::junk(&mut Random::new(seed));
    for (device, faults) in (0..8).flat_map(|device| (0..64).map(move |faults| (device, faults))) {
        let mut random = Random::of_case(seed, u64::from(device) << 6 | faults);
        let mut call = good_call(&mut random, device, &junk);
        let needed = call.output.len() as u64;
        let mut code = 0;
        // From the last to the first, as the first is the one that is told.
        for (index, (number, spoil)) in FAULTS.iter().enumerate().rev() {
            if faults >> index & 1 == 1 {
                spoil(&mut random, &mut call);
                code = *number;
            }
        }
        let value = match code {
            0 | 36 => needed,
            33 => 1,
            _ => 0,
        };
        let case = format!("seed {seed}, device {device}, faults {faults:06b}");
        let done = compare_calls(&call, &case);
        assert_eq!((done.end.code, done.end.taken), (code, value), "{case}");
    }
}

#[test]
fn records_in_other_phases() {
    let seed = random::seed(36);
    let junk = memories::junk(&mut Random::new(seed));
    for case in 0..1_000 {
        let mut random = Random::of_case(seed, case);
        let mut call = good_call(&mut random, 0, &junk);
        leave_hunting(&mut random, &mut call);
        let case = format!("seed {seed}, case {case}");
        let done = compare_calls(&call, &case);
        assert_eq!((done.end.code, done.end.taken), (24, 0), "{case}");
    }
}
