//! A layout for the XC3S50 with a step of each kind, its stream worked by hand.

use crate::harness::compiler_sides::CompilerSide;
use crate::harness::sides::INDEPENDENT;
use crate::harness::worked::{frames, FRAMES, FRAME_1, FRAME_3, FRAME_367, FRAME_WORDS};
use crate::independent::layout::Desk;
use crate::independent::names::command::{DESYNC, MFWR, RCRC, WCFG};
use crate::independent::names::SYNC;

const WRITE_CMD: u32 = 0x3000_8001;
const WRITE_FAR: u32 = 0x3000_2001;
const WRITE_FLR: u32 = 0x3001_6001;
const WRITE_IDCODE: u32 = 0x3001_C001;
const WRITE_MFWR: u32 = 0x3001_4002;
const WRITE_CRC: u32 = 0x3000_0001;
const OPEN_FDRI: u32 = 0x3000_4000;
const OF_1_FRAME: u32 = 0x5000_0025;
const OF_3_FRAMES: u32 = 0x5000_006F;

/// Frames of 1 and 2 from frame 3 on, then one of 9 to frames 1 and 367.
fn layout() -> Vec<u8> {
    let frame = |value: u8| [value; 4 * FRAME_WORDS];
    let frame_write = [&[1, 3, 2][..], &frame(1), &frame(2)].concat();
    let multi_frame_write = [&[2, 2][..], &frame(9), &[1, 0xEF, 2]].concat();
    [&[1, 0, 2][..], &frame_write, &multi_frame_write].concat()
}

/// The words of the stream up to each CRC word, and those after the last.
fn words_between_checks() -> [Vec<u32>; 4] {
    let opening = [0xFFFF_FFFF, SYNC, WRITE_CMD, RCRC, WRITE_FLR, 36];
    let idcode = [WRITE_IDCODE, 0x0140_D093];
    let at_3 = [WRITE_CMD, WCFG, WRITE_FAR, FRAME_3, OPEN_FDRI, OF_3_FRAMES];
    let pad = [0; FRAME_WORDS];
    let one_frame = [WRITE_CMD, WCFG, OPEN_FDRI, OF_1_FRAME];
    let to_1 = [WRITE_FAR, FRAME_1, WRITE_CMD, MFWR, WRITE_MFWR, 0, 0];
    let to_367 = [WRITE_FAR, FRAME_367, WRITE_MFWR, 0, 0];
    [
        [&opening[..], &idcode, &at_3, &frames(1, 2), &pad].concat(),
        [&one_frame[..], &frames(9, 1)].concat(),
        [&to_1[..], &to_367, &[WRITE_CRC]].concat(),
        vec![WRITE_CMD, DESYNC],
    ]
}

/// Asserts a compiler's stream word by word; the loader judges the CRC words, of which just one
/// without an upper half passes.
pub fn assert_stream(side: &CompilerSide) {
    let stream = side.compiled(Desk::whole(0), &layout());
    let stream = stream.expect("the layout is accepted");
    let (words, _) = stream.as_chunks();
    let mut words = words.iter().map(|word| u32::from_be_bytes(*word));
    for (index, known) in words_between_checks().iter().enumerate() {
        if index > 0 {
            let is_low = words.next().is_some_and(|word| word < 65_536);
            assert!(is_low, "{}, check {index}", side.name);
        }
        let next: Vec<u32> = words.by_ref().take(known.len()).collect();
        assert_eq!(next, *known, "{}, after check {index}", side.name);
    }
    assert_eq!(words.next(), None, "{}", side.name);

    let end = INDEPENDENT.load(&INDEPENDENT.powered(0), &stream);
    let answer = (end.code, end.taken);
    assert_eq!(answer, (0, stream.len() as u64), "{}", side.name);
    for number in 0..FRAMES {
        let value = match number {
            3 => 1,
            4 => 2,
            1 | 367 => 9,
            _ => 0,
        };
        let frame = end.state.frame(number);
        assert!(frame.iter().all(|&byte| byte == value), "frame {number}");
    }
}
