//! The proved layout reader and reference machine against the independent ones: code, value and
//! memory all equal.

use seamwillow_tests::generate::random::{self, Random};
use seamwillow_tests::generate::{layouts, memories};
use seamwillow_tests::harness::counts::Counts;
use seamwillow_tests::harness::layout_sides::Comparer;
use seamwillow_tests::independent::layout::{answer, number, Cause, Desk, Refusal, MOST_STEPS};
use seamwillow_tests::independent::reference::PARTS;

const LAYOUTS: u64 = 520_000;

/// Those that the C interface gives.
const NUMBERS: [u32; 15] = [0, 21, 23, 32, 33, 34, 35, 37, 41, 42, 43, 44, 45, 46, 47];

/// What the generated layouts came to, so that a generator gone shallow shows.
#[derive(Default, Debug)]
struct Coverage {
    numbers: Counts<u32>,
    causes: Counts<Cause>,
    accepted: Counts<u32>,
    refused: Counts<u32>,
}

impl Coverage {
    fn note(&mut self, device: u32, result: Result<u64, Refusal>) {
        let (parts, number) = match result {
            Ok(_) => (&mut self.accepted, 0),
            Err(Refusal { cause, .. }) => {
                self.causes.note(cause);
                (&mut self.refused, cause.number())
            }
        };
        parts.note(device);
        self.numbers.note(number);
    }

    fn assert_deep(&self) {
        println!("{self:?}");
        self.numbers.assert_reached(NUMBERS);
        self.causes.assert_reached(Cause::all());
        self.accepted.assert_reached(0..8);
        self.refused.assert_reached(0..8);
    }
}

#[test]
fn generated_layouts() {
    let seed = random::seed(20);
    let memory = memories::junk(&mut Random::new(seed));
    let mut comparer = Comparer::default();
    let mut coverage = Coverage::default();
    for case in 0..LAYOUTS {
        let mut random = Random::of_case(seed, case);
        let (desk, layout) = layouts::some(&mut random);
        let memory = &memory[..memories::some_length(&mut random, desk.device.min(7))];
        let case = format!("seed {seed}, case {case}");
        let result = comparer.compare(desk, &layout, memory, &case);
        coverage.note(desk.device, result);
    }
    coverage.assert_deep();
}

/// How many layouts of a device are cut; larger parts cost more.
fn cut_layouts(device: u32) -> u64 {
    match device {
        0 => 80,
        _ => 1,
    }
}

#[test]
fn cut_at_every_byte() {
    let seed = random::seed(21);
    let memory = memories::junk(&mut Random::new(seed));
    let mut comparer = Comparer::default();
    let mut cuts = 0;
    for (device, part) in (0..).zip(&PARTS) {
        let memory = &memory[..part.memory_bytes()];
        // So that no layout is long.
        let desk = Desk {
            device,
            first: part.frame_count() - 4,
            count: 4,
        };
        for case in 0..cut_layouts(device) {
            let layout = layouts::of_steps(&mut Random::of_case(seed, case), desk, 3);
            let case = format!("seed {seed}, case {case}");
            let mut compared = |layout| comparer.compare(desk, layout, memory, &case);
            assert!(compared(&layout).is_ok(), "{case}");
            for length in 0..layout.len() {
                let refusal = compared(&layout[..length]).unwrap_err();
                assert_eq!(refusal.cause.number(), 42, "{case}, cut to {length}");
            }
            cuts += layout.len();
        }
    }
    println!("{cuts} cut layouts");
}

#[test]
fn most_steps_and_one_more() {
    let seed = random::seed(22);
    let mut random = Random::new(seed);
    let memory = memories::junk(&mut random);
    let case = format!("seed {seed}");
    let mut comparer = Comparer::default();
    for (device, part) in (0..).zip(&PARTS) {
        let desk = Desk::whole(device);
        let memory = &memory[..part.memory_bytes()];
        let mut layout_of = |steps| layouts::of_steps(&mut random, desk, steps);
        let mut compared = |layout: &[u8]| comparer.compare(desk, layout, memory, &case);
        assert!(compared(&layout_of(MOST_STEPS)).is_ok());
        let mut one_more = layout_of(MOST_STEPS + 1);
        let refusal = compared(&one_more).unwrap_err();
        assert_eq!((refusal.cause, refusal.offset), (Cause::TooManySteps, 2));
        // The step count is the layout's third number, here in two bytes.
        one_more[2..4].copy_from_slice(&number::coded(u64::from(MOST_STEPS)));
        let refusal = compared(&one_more).unwrap_err();
        assert_eq!(refusal.cause, Cause::BytesAfterEnd);
        let up_to_it = &one_more[..refusal.offset];
        assert!(compared(up_to_it).is_ok());
    }
}

#[test]
fn memories_of_wrong_lengths() {
    let seed = random::seed(23);
    let mut random = Random::new(seed);
    let junk = memories::junk(&mut random);
    let mut comparer = Comparer::default();
    for device in 0..8 {
        let desk = Desk::whole(device);
        let layout = layouts::of_steps(&mut random, desk, 2);
        let past_part = Desk { first: 1, ..desk };
        let unknown = Desk { device: 8, ..desk };
        for length in memories::wrong_lengths(device) {
            let case = format!("seed {seed}, memory of {length}");
            let memory = &junk[..length];
            let mut compared = |desk, layout| answer(comparer.compare(desk, layout, memory, &case));
            assert_eq!(compared(desk, &layout), (23, 0));
            // What is wrong with the call or the layout comes first.
            assert_eq!(compared(unknown, &layout), (21, 0));
            assert_eq!(compared(past_part, &layout), (37, 0));
            assert_eq!(compared(desk, &layout[..2]), (42, 2));
        }
    }
}
