//! Single numbers and steps of layouts at any offset: the proved library against the independent
//! reader.

use seamwillow_tests::generate::layouts;
use seamwillow_tests::generate::random::{self, Random};
use seamwillow_tests::harness::counts::Counts;
use seamwillow_tests::harness::ffi;
use seamwillow_tests::independent::layout::number::{self, BadForm};
use seamwillow_tests::independent::layout::{answer, step_end, Desk};
use seamwillow_tests::independent::reference::PARTS;

const TEXTS: u64 = 200_000;
const LAYOUTS: u64 = 100_000;
/// Offsets of a layout at which a step is asked for, beside those where one begins.
const OFFSETS: u32 = 8;

/// The number at an offset, as the C interface has it.
fn expected_number(bytes: &[u8], at: usize) -> (u32, u32, u64) {
    match number::read(bytes.get(at..).unwrap_or_default()) {
        Ok((value, length)) => (0, value, (at + length) as u64),
        Err(BadForm::TooLarge | BadForm::NotShortest) => (41, 0, 0),
        Err(BadForm::CutShort) => (42, 0, 0),
    }
}

/// Bytes that are often part of a long number, or its end.
fn some_bytes(random: &mut Random) -> Vec<u8> {
    let length = random.below(10);
    let byte = |_| match random.below(8) {
        0 => random.pick(&[0, 1, 15, 16, 127]),
        1 => random.next_u32() as u8,
        _ => 0x80 | random.next_u32() as u8,
    };
    (0..length).map(byte).collect()
}

#[test]
fn numbers_at_every_offset() {
    let seed = random::seed(37);
    let mut codes = Counts::default();
    let mut lengths = Counts::default();
    for case in 0..TEXTS {
        let bytes = some_bytes(&mut Random::of_case(seed, case));
        for at in (0..bytes.len() + 2).chain([usize::MAX]) {
            let told = ffi::read_number(&bytes, at);
            let wanted = expected_number(&bytes, at);
            assert_eq!(told, wanted, "seed {seed}, {bytes:02X?} at {at}");
            codes.note(told.0);
            if told.0 == 0 {
                lengths.note(told.2 - at as u64);
            }
        }
    }
    println!("{codes:?}, of lengths {lengths:?}");
    codes.assert_reached([0, 41, 42]);
    lengths.assert_reached(1..6);
}

/// The step at an offset on both sides; the answer.
fn compare_step(desk: Desk, layout: &[u8], at: usize, case: &str) -> (u32, u64) {
    let told = ffi::read_step(desk, layout, at);
    let wanted = answer(step_end(desk, layout, at));
    assert_eq!(told, wanted, "{case}, {desk:?}, at {at}");
    told
}

#[test]
fn steps_at_any_offset() {
    let seed = random::seed(38);
    let mut codes = Counts::default();
    for case in 0..LAYOUTS {
        let mut random = Random::of_case(seed, case);
        let (desk, layout) = layouts::some(&mut random);
        let desk = Desk {
            device: desk.device % 8,
            ..desk
        };
        let case = format!("seed {seed}, case {case}");
        // The steps one after another, from where the head mostly ends.
        let mut next = (0, 3);
        while let (0, at) = next {
            next = compare_step(desk, &layout, at as usize, &case);
            codes.note(next.0);
        }
        for _ in 0..OFFSETS {
            let at = random.place(layout.len() + 2);
            codes.note(compare_step(desk, &layout, at, &case).0);
        }
        compare_step(desk, &layout, usize::MAX, &case);
    }
    println!("{codes:?}");
    codes.assert_reached([0, 34, 35, 41, 42, 43, 44, 45]);
}

/// 01 leaves this free: every step is refused, one that has its form with 34.
#[test]
fn steps_for_no_part() {
    for (desk, part) in (0..8).map(Desk::whole).zip(&PARTS) {
        for device in [8, 9, u32::MAX] {
            let desk = Desk { device, ..desk };
            let frame = vec![0; part.frame_bytes()];
            let frame_write = [&[1, 0, 1, 1, 7, 1], &frame[..]].concat();
            assert_eq!(ffi::read_step(desk, &frame_write, 3), (34, 4));
            let multi_frame_write = [&[1, 0, 1, 2, 1], &frame[..], &[7]].concat();
            assert_eq!(ffi::read_step(desk, &multi_frame_write, 3), (34, 4));
            assert_eq!(ffi::read_step(desk, &[1, 0, 1, 1, 7, 0], 3), (44, 5));
            assert_eq!(ffi::read_step(desk, &[1, 0, 1, 3], 3), (43, 3));
            assert_eq!(ffi::read_step(desk, &[1, 0, 1], 3), (42, 3));
        }
    }
}
