//! What the scope paper (01) and the requests (02) say of layouts, worked by hand on the XC3S50:
//! 01's examples with 02's numbers, each refusal with its offset, and what the steps do.

use seamwillow_tests::harness::layout_sides::{INDEPENDENT, PROVED};
use seamwillow_tests::independent::layout::{number, Desk};

const FRAME_BYTES: usize = 4 * 37;
const MEMORY_BYTES: usize = FRAME_BYTES * 368;
/// A frame in layouts of which only the length matters.
const FRAME: [u8; FRAME_BYTES] = [0xA5; FRAME_BYTES];
const LARGEST: [u8; 5] = [0xFF, 0xFF, 0xFF, 0xFF, 0x0F];

const WHOLE: Desk = of_range(0, 368);

const fn of_range(first: u32, count: u32) -> Desk {
    Desk {
        device: 0,
        first,
        count,
    }
}

/// Asserts both sides' answer to a layout of these pieces; the memory after it.
fn assert_answer(desk: Desk, pieces: &[&[u8]], answer: (u32, u64)) -> Vec<u8> {
    let layout = pieces.concat();
    let [independent, proved] = [INDEPENDENT, PROVED].map(|side| {
        let what = format!("{}: {desk:?}, layout {layout:02X?}", side.name);
        let mut memory = vec![0xEE; MEMORY_BYTES];
        assert_eq!((side.check)(desk, &layout), answer, "check, {what}");
        let applied = (side.apply)(desk, &layout, &mut memory);
        assert_eq!(applied, answer, "apply, {what}");
        memory
    });
    assert!(independent == proved);
    independent
}

/// Asserts that both sides refuse and leave the memory.
fn assert_refused(desk: Desk, pieces: &[&[u8]], answer: (u32, u64)) {
    let memory = assert_answer(desk, pieces, answer);
    assert!(memory.iter().all(|&byte| byte == 0xEE));
}

#[test]
fn the_papers_examples() {
    let no_steps: &[u8] = &[1, 0, 0];
    assert_answer(WHOLE, &[no_steps], (0, 48));
    assert_refused(WHOLE, &[], (42, 0));
    assert_refused(WHOLE, &[&[0x81, 0, 0, 0]], (41, 0));
    assert_refused(WHOLE, &[&[2, 0, 0]], (32, 0));
    assert_refused(WHOLE, &[&[1, 1, 0]], (33, 1));
    assert_answer(of_range(364, 4), &[no_steps], (0, 48));
    assert_refused(of_range(364, 5), &[no_steps], (37, 0));
    let outside_range = &[1, 0, 1, 1, 0x80, 2, 1];
    assert_refused(of_range(0, 256), &[outside_range], (35, 4));
    let frame_367 = [1, 0, 1, 1, 0xEF, 2];
    assert_answer(WHOLE, &[&frame_367, &[1], &FRAME], (0, 372));
    assert_refused(WHOLE, &[&frame_367, &[2], &FRAME, &FRAME], (34, 4));
}

#[test]
fn the_papers_lengths() {
    let frame_write = |count| [1, 0, 1, 1, 0, count];
    assert_answer(WHOLE, &[&frame_write(1), &FRAME], (0, 372));
    assert_answer(WHOLE, &[&frame_write(3), &FRAME, &FRAME, &FRAME], (0, 668));
    let to_targets = |count| [1, 0, 1, 2, count];
    assert_answer(WHOLE, &[&to_targets(1), &FRAME, &[5]], (0, 244));
    assert_answer(WHOLE, &[&to_targets(3), &FRAME, &[5, 6, 9]], (0, 284));
}

#[test]
fn numbers() {
    // The largest is a number, though no edition.
    assert_refused(WHOLE, &[&LARGEST], (32, 0));
    for (bad_number, number) in [
        // Cut short by the end of the file.
        (&[][..], 42),
        (&[0x80], 42),
        (&[0x80, 0x80, 0x80, 0x80], 42),
        // Badly formed: not the shortest form.
        (&[0x80, 0], 41),
        (&[0x81, 0], 41),
        (&[0x81, 0x80, 0], 41),
        (&[0x81, 0x80, 0x80, 0x80, 0], 41),
        // A fifth byte above 15, whatever follows it or does not.
        (&[0xFF, 0xFF, 0xFF, 0xFF, 0x10], 41),
        (&[0x81, 0x80, 0x80, 0x80, 0x10], 41),
        (&[0x81, 0x80, 0x80, 0x80, 0x80, 1], 41),
        (&[0x81, 0x80, 0x80, 0x80, 0x8F], 41),
    ] {
        // At each number of the layout, and where it starts.
        for (before, offset) in [
            (&[][..], 0),
            (&[1], 1),
            (&[1, 0], 2),
            (&[1, 0, 1], 3),
            (&[1, 0, 1, 1], 4),
            (&[1, 0, 1, 1, 7], 5),
            (&[1, 0, 1, 2], 4),
        ] {
            assert_refused(WHOLE, &[before, bad_number], (number, offset));
        }
        let before_targets = [&[1, 0, 1, 2, 2], &FRAME[..]].concat();
        assert_refused(WHOLE, &[&before_targets, bad_number], (number, 153));
        assert_refused(WHOLE, &[&before_targets, &[7], bad_number], (number, 154));
    }
}

#[test]
fn the_call() {
    for device in [8, 9, u32::MAX] {
        // Also where the range and the layout are wrong.
        for (first, count) in [(0, 0), (0, 368), (u32::MAX, u32::MAX)] {
            let desk = Desk {
                device,
                first,
                count,
            };
            assert_refused(desk, &[], (21, 0));
            assert_refused(desk, &[&[1, 8, 0]], (21, 0));
        }
    }
    for (first, count) in [
        (0, 369),
        (1, 368),
        (369, 0),
        (1, u32::MAX),
        (u32::MAX, 1),
        (u32::MAX, u32::MAX),
    ] {
        assert_refused(of_range(first, count), &[], (37, 0));
    }
    assert_answer(of_range(368, 0), &[&[1, 0, 0]], (0, 48));
}

#[test]
fn head_and_end() {
    assert_refused(WHOLE, &[&[0, 9]], (32, 0));
    assert_refused(WHOLE, &[&[1, 8]], (33, 1));
    assert_refused(WHOLE, &[&[1], &LARGEST], (33, 1));
    let step_count_4096 = [1, 0, 0x80, 0x20];
    assert_refused(WHOLE, &[&step_count_4096], (42, 4));
    let step_count_4097 = [1, 0, 0x81, 0x20];
    assert_refused(WHOLE, &[&step_count_4097], (46, 2));
    for kind in [0, 3, 127] {
        assert_refused(WHOLE, &[&[1, 0, 1, kind]], (43, 3));
    }
    let kind_257 = [1, 0, 1, 0x81, 2];
    assert_refused(WHOLE, &[&kind_257, &[7, 1], &FRAME], (43, 3));
    assert_refused(WHOLE, &[&[1, 0, 0, 0]], (47, 3));
    let step = [&[1, 0, 1, 1, 0, 1], &FRAME[..]].concat();
    assert_refused(WHOLE, &[&step, &[1, 0, 1]], (47, 154));
}

#[test]
fn frame_writes() {
    let before: &[u8] = &[1, 0, 1, 1];
    let frame_368: &[u8] = &[0xF0, 2];
    // A zero count, at the count and before the frame is judged.
    assert_refused(WHOLE, &[before, &[7, 0]], (44, 5));
    assert_refused(WHOLE, &[before, &LARGEST, &[0]], (44, 9));
    // 34, also where the desk does not name the frame and bytes are missing.
    for desk in [WHOLE, of_range(10, 2), of_range(368, 0)] {
        assert_refused(desk, &[before, frame_368, &[1]], (34, 4));
        assert_refused(desk, &[before, &[1], &LARGEST], (34, 4));
        assert_refused(desk, &[before, &LARGEST, &[1]], (34, 4));
        assert_refused(desk, &[before, &LARGEST, &LARGEST], (34, 4));
        // 368 frames from frame 1 on.
        assert_refused(desk, &[before, &[1, 0xF0, 2]], (34, 4));
    }
    // 35, also where bytes are missing.
    for (first, count) in [(9, 1), (9, 2), (9, 4), (11, 2), (12, 1)] {
        assert_refused(of_range(10, 2), &[before, &[first, count]], (35, 4));
    }
    assert_refused(of_range(10, 0), &[before, &[10, 1], &FRAME], (35, 4));
    // Missing bytes, at the end of those that are there.
    let two_frames = [before, &[10, 2], &FRAME, &FRAME].concat();
    assert_answer(of_range(10, 2), &[&two_frames], (0, 520));
    for length in [6, 7, 6 + FRAME_BYTES, two_frames.len() - 1] {
        let cut = &two_frames[..length];
        assert_refused(of_range(10, 2), &[cut], (42, length as u64));
    }
}

#[test]
fn multi_frame_writes() {
    let before: &[u8] = &[1, 0, 1, 2];
    assert_refused(WHOLE, &[before, &[0], &FRAME], (44, 4));
    // More targets than frames, also where bytes are missing.
    let count_369: &[u8] = &[0xF1, 2];
    for desk in [WHOLE, of_range(10, 2)] {
        assert_refused(desk, &[before, count_369], (34, 4));
        assert_refused(desk, &[before, &LARGEST, &FRAME], (34, 4));
    }
    // Missing bytes, at the end of those that are there.
    let one_target = [before, &[1], &FRAME, &[10]].concat();
    assert_answer(of_range(10, 2), &[&one_target], (0, 244));
    for length in [5, 6, 4 + FRAME_BYTES, 5 + FRAME_BYTES] {
        let cut = &one_target[..length];
        assert_refused(of_range(10, 2), &[cut], (42, length as u64));
    }
    let two_targets = |desk, targets: &[u8], answer| {
        assert_refused(desk, &[before, &[2], &FRAME, targets], answer);
    };
    two_targets(WHOLE, &[3, 3], (45, 154));
    two_targets(WHOLE, &[3, 2], (45, 154));
    let third_target = &[before, &[3], &FRAME, &[3, 5, 4]];
    assert_refused(WHOLE, third_target, (45, 155));
    // Not rising comes before 35.
    two_targets(of_range(10, 2), &[10, 3], (45, 154));
    // Frame 368, alone and after frame 367.
    two_targets(WHOLE, &[0xF0, 2], (34, 153));
    two_targets(WHOLE, &[0xEF, 2, 0xF0, 2], (34, 155));
    two_targets(of_range(10, 2), &[10, 0xF0, 2], (34, 154));
    two_targets(WHOLE, &LARGEST, (34, 153));
    two_targets(of_range(10, 2), &[9, 10], (35, 153));
    two_targets(of_range(10, 2), &[11, 12], (35, 154));
    two_targets(of_range(10, 0), &[10, 11], (35, 153));
}

#[test]
fn what_the_steps_do() {
    let frame = |value: u8| [value; FRAME_BYTES];
    let two_steps: &[&[u8]] = &[
        &[1, 0, 2],
        // Frames 3 to 5.
        &[1, 3, 3],
        &frame(1),
        &frame(2),
        &frame(3),
        // Frames 4 and 367.
        &[2, 2],
        &frame(9),
        &[4, 0xEF, 2],
    ];
    let memory = assert_answer(WHOLE, two_steps, (0, 4 * (12 + 155 + 54)));
    for (number, bytes) in memory.chunks_exact(FRAME_BYTES).enumerate() {
        let value = match number {
            3 => 1,
            4 | 367 => 9,
            5 => 3,
            _ => 0xEE,
        };
        assert_eq!(bytes, frame(value), "frame {number}");
    }
    let memory = assert_answer(WHOLE, &[&[1, 0, 0]], (0, 48));
    assert!(memory.iter().all(|&byte| byte == 0xEE));
    // As many targets as there are frames.
    let targets: Vec<u8> = (0..368).flat_map(number::coded).collect();
    let every_frame: &[&[u8]] = &[&[1, 0, 1, 2, 0xF0, 2], &FRAME, &targets];
    let memory = assert_answer(WHOLE, every_frame, (0, 4 * (12 + 7 + 37 + 5 * 368)));
    assert!(memory.iter().all(|&byte| byte == 0xA5));
}
