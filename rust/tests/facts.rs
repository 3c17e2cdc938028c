//! What the scope paper (01) says of a load beside its stops, worked by hand on the XC3S50.

use seamwillow_tests::harness::sides::{Side, State};
use seamwillow_tests::harness::worked::{at_address, frames, in_hand_at, loaded};
use seamwillow_tests::harness::worked::{
    FRAMES, FRAME_0, FRAME_1, FRAME_3, FRAME_367, NO_FRAME, SIDES,
};
use seamwillow_tests::independent::names::{command, field, flag, phase, register, SYNC};
use seamwillow_tests::independent::stream::{write_header, Stream};

/// Asserts that the frame has only bytes of the value.
fn assert_frame(state: &State, number: u32, value: u8) {
    let frame = state.frame(number);
    assert!(frame.iter().all(|&byte| byte == value), "frame {number}");
}

/// Whether the part has started or is to start, after a stream.
fn start_flags(side: &Side, stream: &Stream) -> u32 {
    loaded(side, stream).word(field::FLAGS) & (flag::STARTED | flag::START_PENDING)
}

#[test]
fn the_papers_example() {
    let stream = [
        0xFF, 0xFF, 0xFF, 0xFF, 0xAA, 0x99, 0x55, 0x66, 0x30, 0x00, 0x80, 0x01, 0x00, 0x00, 0x00,
        0x07,
    ];
    for side in SIDES {
        let end = side.load(&side.powered(0), &stream);
        assert_eq!((end.code, end.taken), (0, 16), "{}", side.name);
        assert_eq!(end.state.word(field::PHASE), phase::HEADER, "{}", side.name);
        assert_eq!(end.state.word(field::FLAGS), 0, "{}", side.name);
        assert_eq!(end.state.word(field::register(register::CMD)), 7);
    }
}

#[test]
fn one_frame_needs_no_place() {
    let mut stream = at_address(NO_FRAME);
    stream.frames(&frames(1, 1));
    for side in SIDES {
        let state = loaded(&side, &stream);
        assert_eq!(
            state.word(field::FLAGS) & flag::FRAME_IN_HAND,
            flag::FRAME_IN_HAND
        );
        assert_eq!(state.word(field::CURRENT), u32::MAX);
        assert!(state.memory.iter().all(|&byte| byte == 0));
    }
}

#[test]
fn the_pad_frame_is_not_stored() {
    let mut stream = at_address(FRAME_0);
    stream
        .frames(&frames(1, 5))
        .write(register::FAR, &[FRAME_1])
        .frames(&frames(10, 3));
    for side in SIDES {
        let state = loaded(&side, &stream);
        for (number, value) in (0..).zip([1, 10, 11, 4, 0]) {
            assert_frame(&state, number, value);
        }
        assert_eq!(state.word(field::CURRENT), 3, "{}", side.name);
    }
}

#[test]
fn multiple_frame_write_does_not_move_the_frame() {
    let mut stream = in_hand_at(FRAME_1);
    stream
        .write(register::MFWR, &[0, 0])
        .write(register::MFWR, &[0, 0])
        .write(register::FAR, &[FRAME_367])
        .write(register::MFWR, &[1, 2]);
    for side in SIDES {
        let state = loaded(&side, &stream);
        for (number, value) in [(0, 0), (1, 9), (2, 0), (366, 0), (367, 9)] {
            assert_frame(&state, number, value);
        }
        assert_eq!(state.word(field::CURRENT), FRAMES - 1, "{}", side.name);
    }
}

#[test]
fn frames_are_kept_at_a_failed_check() {
    let mut stream = at_address(FRAME_3);
    stream
        .frames_before_check(&frames(1, 3))
        .words(&[0x0001_0000]);
    for side in SIDES {
        let end = side.load(&side.powered(0), stream.bytes());
        assert_eq!(end.code, 8, "{}", side.name);
        for (number, value) in [(3, 1), (4, 2), (5, 0)] {
            assert_frame(&end.state, number, value);
        }
    }
}

#[test]
fn desync_acts_again_at_a_frame_address() {
    let mut stream = Stream::synced();
    stream.command(command::DESYNC).words(&[SYNC]);
    stream.words(&[write_header(register::FAR, 2), FRAME_3]);
    // The second word to FAR is dropped, and its bytes are hunted.
    let mut hunted = stream.clone();
    hunted.words(&[SYNC]);
    for side in SIDES {
        let state = loaded(&side, &stream);
        assert_eq!(state.word(field::PHASE), phase::HUNTING, "{}", side.name);
        assert_eq!(state.word(field::CURRENT), 3, "{}", side.name);
        assert_eq!(state.word(field::register(register::FAR)), FRAME_3);
        let state = loaded(&side, &hunted);
        assert_eq!(state.word(field::PHASE), phase::HEADER, "{}", side.name);
    }
}

#[test]
fn commands_act_again_at_a_frame_address() {
    let mut reset = Stream::ready(0);
    reset
        .command(command::RCRC)
        .write(register::COR, &[1])
        .write(register::FAR, &[0]);
    let mut forgotten = Stream::ready(0);
    forgotten
        .command(command::START)
        .check()
        .write(register::FAR, &[0]);
    let pending = forgotten.clone();
    forgotten.command(command::DESYNC);
    for side in SIDES {
        assert_eq!(loaded(&side, &reset).word(field::CRC), 0, "{}", side.name);
        // START acted again, so the check came before it.
        for (stream, flag) in [(&pending, flag::START_PENDING), (&forgotten, 0)] {
            assert_eq!(start_flags(&side, stream), flag, "{}", side.name);
        }
    }
}

#[test]
fn ghigh_is_set_and_cleared() {
    let mut raised = Stream::synced();
    raised.command(command::AGHIGH).command(command::SWITCH);
    let mut lowered = raised.clone();
    lowered.command(command::LFRM);
    for side in SIDES {
        for (stream, flags) in [(&raised, flag::GHIGH), (&lowered, 0)] {
            let state = loaded(&side, stream);
            assert_eq!(state.word(field::FLAGS), flags, "{}", side.name);
        }
    }
}

#[test]
fn a_start_needs_a_check_since_and_the_idcode() {
    let mut checked_before = Stream::ready(0);
    checked_before
        .check()
        .command(command::START)
        .command(command::DESYNC);
    let mut no_idcode = Stream::synced();
    no_idcode
        .command(command::START)
        .check()
        .command(command::DESYNC);
    let mut in_order = Stream::ready(0);
    in_order
        .command(command::START)
        .check()
        .command(command::DESYNC);
    // A start does not stay pending over DESYNC, but started stays.
    let mut late = checked_before.clone();
    late.words(&[SYNC]).check().command(command::DESYNC);
    let mut stays = in_order.clone();
    stays
        .words(&[SYNC])
        .command(command::START)
        .command(command::DESYNC);
    let cases = [
        (checked_before, 0),
        (no_idcode, 0),
        (in_order, flag::STARTED),
        (late, 0),
        (stays, flag::STARTED),
    ];
    for side in SIDES {
        for (index, (stream, flag)) in cases.iter().enumerate() {
            let flags = start_flags(&side, stream);
            assert_eq!(flags, *flag, "{}, case {index}", side.name);
        }
    }
}

#[test]
fn registers_hold_the_last_word() {
    let mut stream = Stream::ready(0);
    stream
        // RCRC would act again at FAR.
        .command(command::SWITCH)
        .write(register::MASK, &[1, 0x0000_00F0])
        .write(register::CTL, &[0xFFFF_FFFF])
        .write(register::MASK, &[0x0000_000F])
        .write(register::CTL, &[0x1234_5605])
        .write(register::COR, &[7, 8])
        .write(register::FAR, &[FRAME_3, 0xF800_01FF]);
    let mut unfed = stream.clone();
    unfed.write(register::LOUT, &[SYNC, 0xCAFE_F00D]);
    for side in SIDES {
        let state = loaded(&side, &unfed);
        for (register, word) in [
            (register::CTL, 0x0000_00F5),
            (register::MASK, 0x0000_000F),
            (register::COR, 8),
            (register::LOUT, 0xCAFE_F00D),
            (register::FAR, 0xF800_01FF),
        ] {
            assert_eq!(state.word(field::register(register)), word, "{register}");
        }
        assert_eq!(state.word(field::CURRENT), 0, "{}", side.name);
        assert_eq!(
            state.word(field::CRC),
            loaded(&side, &stream).word(field::CRC)
        );
        assert_ne!(state.word(field::CRC), 0);
    }
}

#[test]
fn hunting() {
    let cases: [(&[u8], u32); 5] = [
        (&[0xAA, 0xAA, 0x99, 0x55, 0x66], phase::HEADER),
        (
            &[0x00, 0xAA, 0x99, 0x55, 0xAA, 0x99, 0x55, 0x66],
            phase::HEADER,
        ),
        (&[0xAA, 0x99, 0x66, 0x55, 0x66], phase::HUNTING),
        (&[0xAA, 0x99, 0x55], phase::HUNTING),
        (&[], phase::HUNTING),
    ];
    let mut desynced = Stream::synced();
    desynced.command(command::DESYNC);
    for side in SIDES {
        for start in [side.powered(0), loaded(&side, &desynced)] {
            for (stream, phase) in cases {
                let end = side.load(&start, stream);
                assert_eq!((end.code, end.taken), (0, stream.len() as u64));
                assert_eq!(end.state.word(field::PHASE), phase, "{stream:02X?}");
                assert_eq!(end.state.word(field::ARGUMENT), 0);
            }
        }
    }
}
