//! What `build` and `load` write, and how `build` and `layout` refuse: as the independent compiler,
//! layout reader and loader have it.

use crate::common::{refusals, Scratch, Told};
use seamwillow_tests::generate::random::{self, Random};
use seamwillow_tests::generate::{guided, layouts};
use seamwillow_tests::harness::compiler_sides::INDEPENDENT;
use seamwillow_tests::harness::counts::Counts;
use seamwillow_tests::independent::layout::{self, answer, Desk, Refusal};
use seamwillow_tests::independent::loader::{Phase, Record};
use seamwillow_tests::independent::reference::PARTS;
use std::fs;

const BUILDS: u64 = 600;
const LOADS: u64 = 300;

/// A refusal's status, number and place, and what was expected there; 37 has no place in the layout.
fn assert_refused(told: &Told, desk: Desk, layout: &[u8], refusal: Refusal, case: &str) {
    let Desk {
        device,
        first,
        count,
    } = desk;
    let (code, offset) = (refusal.cause.number(), refusal.offset);
    let (place, rest) = match code {
        37 => {
            let name = PARTS[device as usize].name;
            let place = format!("seamwillow: {first}:{count} of the {name}: ");
            (place, String::new())
        }
        _ => {
            let place = format!("seamwillow: some.layout: offset {offset}: ");
            (place, refusals::lines(desk, layout, refusal))
        }
    };
    let (line, lines) = told.err.split_once('\n').unwrap_or_default();
    assert!(line.starts_with(&place), "{case}: {told:?}");
    assert!(line.ends_with(&format!(" ({code})")), "{case}: {told:?}");
    assert_eq!(lines, rest, "{case}");
    assert_eq!((told.status, told.out.len()), (1, 0), "{case}");
}

/// Builds a layout and tells it in words; the code that the independent reader gives.
fn compare_build(scratch: &Scratch, desk: Desk, layout: &[u8], case: &str) -> u32 {
    let Desk {
        device,
        first,
        count,
    } = desk;
    let place = format!("--part {device} --frames {first}:{count}");
    let told = scratch.run(&format!("build -q {place} some.layout -o made.bit"));
    let words = scratch.run(&format!("layout {place} some.layout"));
    let checked = layout::check(desk, layout);
    let (code, value) = answer(checked);
    let is_made = scratch.path("made.bit").exists();
    assert_eq!(is_made, code == 0, "{case}");
    match code {
        0 => {
            let stream = INDEPENDENT.compiled(desk, layout);
            assert_eq!(Some(scratch.read("made.bit")), stream, "{case}");
            assert_eq!((told.status, words.status), (0, 0), "{case}");
            let length = format!("its stream has {value} bytes\n");
            assert!(words.text().contains(&length), "{case}: {words:?}");
            fs::remove_file(scratch.path("made.bit")).expect("it is ours");
        }
        // A device number above 7 names no part.
        21 => {
            let line = format!("seamwillow: {device} is no part: unknown device number (21)\n");
            assert_eq!((told.status, told.err), (2, line), "{case}");
        }
        _ => {
            let refusal = checked.expect_err("it is refused");
            for told in [&told, &words] {
                assert_refused(told, desk, layout, refusal, case);
            }
        }
    }
    code
}

#[test]
fn builds() {
    let seed = random::seed(121);
    let scratch = Scratch::new("builds");
    let mut codes = Counts::default();
    for case in 0..BUILDS {
        let (desk, layout) = layouts::some(&mut Random::of_case(seed, case));
        scratch.write("some.layout", &layout);
        let case = format!("seed {seed}, case {case}");
        codes.note(compare_build(&scratch, desk, &layout, &case));
    }
    println!("{codes:?}");
    for code in [0, 21, 32, 33, 34, 35, 37, 41, 42, 43, 44, 45, 46, 47] {
        assert!(codes.of(&code) >= 3, "{code}: {codes:?}");
    }
}

/// A layout's stream, at times damaged.
fn some_stream(random: &mut Random, device: u32) -> Vec<u8> {
    let desk = Desk::whole(device);
    let layout = layouts::good(random, desk);
    let mut stream = INDEPENDENT.compiled(desk, &layout).unwrap_or_default();
    if random.one_in(3) {
        guided::spoil(random, &mut stream);
    }
    stream
}

/// What came of a stream.
#[derive(Clone, Copy, PartialEq, Eq)]
enum End {
    /// A next one may follow.
    Taken,
    Stopped,
    /// It has no sync word, and the part waited for one.
    NoStream,
}

/// Loads a stream on the independent loader.
fn taken(part: &mut Record, memory: &mut [u8], stream: &[u8]) -> End {
    let mut is_awake = part.phase != Phase::Hunting;
    for &byte in stream {
        part.load(memory, [byte]);
        is_awake |= part.phase != Phase::Hunting;
    }
    match part.phase {
        Phase::Stopped(_) => End::Stopped,
        _ if is_awake => End::Taken,
        _ => End::NoStream,
    }
}

/// Loads streams, at times on a memory of any content; the status.
fn compare_load(scratch: &Scratch, random: &mut Random, case: &str) -> i32 {
    let device = if random.one_in(16) {
        random.below(8)
    } else {
        0
    };
    let part = &PARTS[device as usize];
    let mut memory = vec![0; part.memory_bytes()];
    let (_, mut record) = Record::power_on(device, &mut memory);
    let mut line = format!("load --part {} -o made.img", part.name);
    if random.one_in(2) {
        memory = random.bytes(memory.len());
        scratch.write("before.img", &memory);
        line += " --image before.img";
    }
    let mut end = End::Taken;
    for number in 0..1 + random.below(3) {
        let stream = some_stream(random, device);
        scratch.write(number.to_string(), &stream);
        line += &format!(" {number}");
        if end == End::Taken {
            end = taken(&mut record, &mut memory, &stream);
        }
    }
    let told = scratch.run(&line);
    let is_good = end == End::Taken && record.phase == Phase::Hunting;
    assert_eq!(told.status, i32::from(!is_good), "{case}: {told:?}");
    assert_eq!(told.err.is_empty(), is_good, "{case}: {told:?}");
    // Of a file that is no stream nothing is kept; of a stop the frames before it.
    let is_made = scratch.path("made.img").exists();
    assert_eq!(is_made, end != End::NoStream, "{case}: {told:?}");
    if is_made {
        let is_same = scratch.read("made.img") == memory;
        assert!(is_same, "{case}: other memory");
        fs::remove_file(scratch.path("made.img")).expect("it is ours");
    }
    told.status
}

#[test]
fn loads() {
    let seed = random::seed(122);
    let scratch = Scratch::new("loads");
    let mut statuses = Counts::default();
    for case in 0..LOADS {
        let mut random = Random::of_case(seed, case);
        let case = format!("seed {seed}, case {case}");
        statuses.note(compare_load(&scratch, &mut random, &case));
    }
    println!("{statuses:?}");
    for status in [0, 1] {
        assert!(statuses.of(&status) >= 50, "{statuses:?}");
    }
}
