//! The proved compiler against the independent one: code, value and every byte of the output equal.

use seamwillow_tests::generate::layouts;
use seamwillow_tests::generate::random::{self, Random};
use seamwillow_tests::harness::compiler_sides::{compare, some_room, INDEPENDENT, PROVED};
use seamwillow_tests::harness::counts::Counts;
use seamwillow_tests::harness::worked_layout;
use seamwillow_tests::independent::layout::{self, answer, Desk};
use seamwillow_tests::independent::reference::PARTS;

const LAYOUTS: u64 = 520_000;
/// Of those, at least so many give streams.
const STREAMS: u32 = 200_000;
/// Those that the C interface gives.
const NUMBERS: [u32; 15] = [0, 21, 32, 33, 34, 35, 36, 37, 41, 42, 43, 44, 45, 46, 47];

/// A frame of the XC3S50.
const FRAME: [u8; 148] = [0xA5; 148];

#[test]
fn the_papers_lengths() {
    let desk = Desk::whole(0);
    let cases: [(&[&[u8]], u64); 5] = [
        (&[&[1, 0, 0]], 48),
        (&[&[1, 0, 1, 1, 7, 1], &FRAME], 372),
        (&[&[1, 0, 1, 1, 7, 3], &FRAME, &FRAME, &FRAME], 668),
        (&[&[1, 0, 1, 2, 1], &FRAME, &[7]], 244),
        (&[&[1, 0, 1, 2, 3], &FRAME, &[7, 8, 30]], 284),
    ];
    for side in [INDEPENDENT, PROVED] {
        for (pieces, length) in cases {
            let mut output = vec![0; length as usize];
            let answer = (side.compile)(desk, &pieces.concat(), &mut output);
            assert_eq!(answer, (0, length), "{}", side.name);
        }
    }
}

#[test]
fn a_stream_by_hand() {
    worked_layout::assert_stream(&PROVED);
}

#[test]
fn the_papers_refusals() {
    let of_range = |first, count| Desk {
        device: 0,
        first,
        count,
    };
    let cases: [(Desk, &[u8], (u32, u64)); 7] = [
        (of_range(0, 256), &[1, 0, 1, 1, 0x80, 2, 1], (35, 4)),
        (of_range(0, 368), &[], (42, 0)),
        (of_range(0, 368), &[0x81, 0, 0, 0], (41, 0)),
        (of_range(0, 368), &[2, 0, 0], (32, 0)),
        (of_range(0, 368), &[1, 1, 0], (33, 1)),
        (of_range(364, 5), &[1, 0, 0], (37, 0)),
        (
            Desk {
                device: 8,
                ..of_range(0, 369)
            },
            &[2],
            (21, 0),
        ),
    ];
    for (desk, layout, answer) in cases {
        // Also into no output: the layout is judged before it.
        for room in [0, 48, 400] {
            let filled = vec![0xEE; room];
            let (refused, _) = compare(desk, layout, &filled, "01's examples");
            assert_eq!(refused, answer, "{desk:?}, layout {layout:02X?}");
        }
    }
}

/// What the generated layouts came to, so that a generator gone shallow shows.
#[derive(Default, Debug)]
struct Coverage {
    numbers: Counts<u32>,
    streams: Counts<u32>,
}

#[test]
fn generated_layouts() {
    let seed = random::seed(26);
    let mut coverage = Coverage::default();
    for case in 0..LAYOUTS {
        let mut random = Random::of_case(seed, case);
        let (desk, layout) = layouts::some(&mut random);
        let checked = layout::check(desk, &layout);
        let room = some_room(&mut random, checked);
        let case = format!("seed {seed}, case {case}");
        let (result, _) = compare(desk, &layout, &random.bytes(room), &case);
        let expected = match checked {
            Ok(needed) if needed > room as u64 => (36, needed),
            _ => answer(checked),
        };
        assert_eq!(result, expected, "{case}");
        coverage.numbers.note(result.0);
        if result.0 == 0 {
            coverage.streams.note(desk.device);
        }
    }
    println!("{coverage:?}");
    coverage.numbers.assert_reached(NUMBERS);
    coverage.streams.assert_reached(0..8);
    assert!(coverage.numbers.of(&0) >= STREAMS, "{coverage:?}");
}

#[test]
fn outputs_of_every_length() {
    let seed = random::seed(27);
    for (device, part) in (0..).zip(&PARTS) {
        let mut random = Random::of_case(seed, device.into());
        // So that no stream is long.
        let desk = Desk {
            device,
            first: part.frame_count() - 4,
            count: 4,
        };
        let layout = layouts::of_steps(&mut random, desk, 1);
        let stream = INDEPENDENT.compiled(desk, &layout);
        let stream = stream.expect("the layout is accepted");
        let (length, needed) = (stream.len(), stream.len() as u64);
        for room in 0..length + 40 {
            let case = format!("seed {seed}, {}", part.name);
            let (answer, output) = compare(desk, &layout, &random.bytes(room), &case);
            let code = if room < length { 36 } else { 0 };
            assert_eq!(answer, (code, needed), "{case}, output of {room}");
            assert!(code == 36 || output.starts_with(&stream), "{case}");
        }
    }
}

#[test]
fn the_largest_layouts() {
    let seed = random::seed(28);
    for device in 0..8 {
        let desk = Desk::whole(device);
        let mut random = Random::of_case(seed, device.into());
        for layout in layouts::largest(&mut random, device) {
            let needed = layout::check(desk, &layout).expect("the layout is accepted");
            for (room, code) in [(needed - 1, 36), (needed, 0), (needed + 1, 0)] {
                let filled = random.bytes(room as usize);
                let case = format!("seed {seed}, output of {room}");
                let (answer, _) = compare(desk, &layout, &filled, &case);
                assert_eq!(answer, (code, needed), "{case}");
            }
        }
    }
}

#[test]
fn a_whole_xc3s5000_in_one_step() {
    let layout = layouts::every_frame(&mut Random::new(random::seed(29)), 7);
    // Before the frames: edition, device, one step, its kind, frame 0, 1,945 frames.
    assert!(layout.starts_with(&[1, 7, 1, 1, 0, 0x99, 15]));
    assert_eq!(layout.len(), 7 + 1_657_140);
    let filled = vec![0xEE; 4 * (12 + 7 + 1946 * 213)];
    let (answer, _) = compare(Desk::whole(7), &layout, &filled, "a whole XC3S5000");
    assert_eq!(answer, (0, filled.len() as u64));
}
