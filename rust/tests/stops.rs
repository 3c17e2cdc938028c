//! Each stop of the scope paper (01), reached by hand-made words on the XC3S50.

use seamwillow_tests::harness::sides::{assert_same, End, Side, State};
use seamwillow_tests::harness::worked::{at_address, frames, in_hand_at, loaded};
use seamwillow_tests::harness::worked::{FRAME_0, FRAME_3, FRAME_367, NO_FRAME, SIDES};
use seamwillow_tests::independent::names::{command, field, phase, register, SYNC};
use seamwillow_tests::independent::reference;
use seamwillow_tests::independent::stream::{long_header, write_header, Stream, NO_OP};

/// A word that stops the part, after words that do not.
struct BadWord {
    before: Stream,
    word: u32,
    stop: u32,
}

fn bad(before: &Stream, words: &[u32], stop: u32) -> BadWord {
    let (&word, good) = words.split_last().expect("there is a bad word");
    let mut before = before.clone();
    before.words(good);
    BadWord { before, word, stop }
}

/// The record's image at the stop: that before the word but for the phase, and the CRC at 8.
fn stopped_record(before: &State, bad: &BadWord) -> Vec<u8> {
    let mut words: Vec<u32> = (0..237).map(|index| before.word(index)).collect();
    words[field::PHASE..field::PHASE + 6].copy_from_slice(&[phase::STOPPED, bad.stop, 0, 0, 0, 0]);
    if bad.stop == 8 {
        words[field::CRC] = reference::crc(words[field::CRC], register::CRC, bad.word);
    }
    words.iter().flat_map(|word| word.to_be_bytes()).collect()
}

fn assert_stops(side: &Side, bad: &BadWord) {
    let what = || format!("{}: stop {} at {:08X}", side.name, bad.stop, bad.word);
    let before = loaded(side, &bad.before);
    let mut stream = bad.before.clone();
    stream.words(&[bad.word]);
    let expected = End {
        code: bad.stop,
        taken: stream.bytes().len() as u64,
        state: State {
            record: stopped_record(&before, bad),
            memory: before.memory,
        },
    };
    stream.words(&[SYNC, NO_OP]);
    let end = side.load(&side.powered(0), stream.bytes());
    assert_same(&expected, &end, what);
    // A stopped part takes nothing and answers the same number.
    let again = side.load(&end.state, stream.bytes());
    let nothing_taken = End {
        taken: 0,
        ..expected
    };
    assert_same(&nothing_taken, &again, what);
    let (first, second) = stream.bytes().split_at(bad.before.bytes().len() + 3);
    let in_pieces = side.load_pieces(&side.powered(0), &[first, second]);
    assert_same(&end, &in_pieces, what);
}

fn assert_all_stop(bad_words: &[BadWord]) {
    for side in SIDES {
        for bad_word in bad_words {
            assert_stops(&side, bad_word);
        }
    }
}

#[test]
fn stop_1_header_of_no_allowed_kind() {
    let synced = Stream::synced();
    let open = write_header(register::CMD, 0);
    let mut bad_words: Vec<BadWord> = [
        0x0000_0001, // type 0 but not padding
        0x2000_0001, // operation 0 with a count
        0x3800_0000, // operation 3
        0x5000_0001, // type 2 after no type 1
        0x4800_0001, // the same as a read
        0x6000_0000, // type 3
        SYNC,        // type 5
        0xFFFF_FFFF, // type 7
    ]
    .map(|word| bad(&synced, &[word], 1))
    .into();
    bad_words.extend([
        bad(&synced, &[open, 0x4000_0000], 1),
        bad(&synced, &[open, 0x5800_0001], 1),
        // The chance of a type 2 header ends with the next word, whatever it is.
        bad(&synced, &[open, NO_OP, long_header(1)], 1),
        bad(&synced, &[open, 0, long_header(1)], 1),
        bad(&synced, &[open, long_header(0), long_header(1)], 1),
        bad(
            &synced,
            &[write_header(register::CMD, 1), 0, long_header(1)],
            1,
        ),
    ]);
    assert_all_stop(&bad_words);
}

#[test]
fn stop_2_register_unknown_or_not_writable() {
    let synced = Stream::synced();
    let unknown = [3, 7, 12, 13, 15, 32, 33, 0x3FFF];
    let bad_words: Vec<BadWord> = unknown
        .into_iter()
        .flat_map(|register| [0, 1, 2047].map(|count| write_header(register, count)))
        .map(|word| bad(&synced, &[word], 2))
        .collect();
    assert_all_stop(&bad_words);
}

#[test]
fn stop_3_read() {
    let synced = Stream::synced();
    assert_all_stop(&[
        // Also of a register that is unknown: 3 comes before 2.
        bad(&synced, &[0x2800_E001], 3),
        bad(&synced, &[0x2800_0000], 3),
        bad(&synced, &[0x2FFF_E7FF], 3),
        bad(&synced, &[write_header(register::FDRI, 0), 0x4800_0025], 3),
        bad(&synced, &[write_header(register::FDRI, 0), 0x4800_0000], 3),
    ]);
}

#[test]
fn stops_4_5_and_10_at_data_words() {
    let synced = Stream::synced();
    let idcode = write_header(register::IDCODE, 1);
    let flr = write_header(register::FLR, 1);
    let commands = write_header(register::CMD, 3);
    assert_all_stop(&[
        // Another part, another version.
        bad(&synced, &[idcode, 0x0141_4093], 4),
        bad(&synced, &[idcode, 0x1140_D093], 4),
        bad(&synced, &[flr, 37], 5),
        bad(&synced, &[flr, 0x0001_0024], 5),
        bad(&synced, &[commands, 14], 10),
        bad(&synced, &[commands, 0x8000_0001], 10),
        // The words before the bad one of a packet were written.
        bad(&synced, &[commands, command::LFRM, 0x20], 10),
    ]);
}

#[test]
fn stop_6_before_all_is_ready() {
    let one_frame = write_header(register::FDRI, 37);
    let multiple = write_header(register::MFWR, 2);
    let mut only_idcode = Stream::synced();
    only_idcode
        .write(register::IDCODE, &[0x0140_D093])
        .command(command::WCFG);
    let mut only_flr = Stream::synced();
    only_flr.write(register::FLR, &[36]).command(command::WCFG);
    let mut no_frame = Stream::ready(0);
    no_frame.command(command::MFWR);
    let mut other_command = in_hand_at(FRAME_0);
    other_command.command(command::WCFG);
    assert_all_stop(&[
        bad(&only_idcode, &[one_frame], 6),
        bad(&only_flr, &[one_frame], 6),
        bad(&Stream::ready(0), &[one_frame], 6),
        bad(&no_frame, &[one_frame], 6),
        bad(&no_frame, &[multiple], 6),
        bad(&other_command, &[multiple], 6),
        // The count is judged later, and only at the type 2 header of a pair.
        bad(&only_flr, &[write_header(register::FDRI, 1)], 6),
        bad(
            &only_flr,
            &[write_header(register::FDRI, 0), long_header(37)],
            6,
        ),
        bad(
            &no_frame,
            &[write_header(register::MFWR, 0), long_header(3)],
            6,
        ),
    ]);
}

#[test]
fn stop_7_count() {
    let ready = at_address(FRAME_0);
    let in_hand = in_hand_at(FRAME_0);
    assert_all_stop(&[
        bad(&ready, &[write_header(register::FDRI, 1)], 7),
        bad(&ready, &[write_header(register::FDRI, 36)], 7),
        bad(&ready, &[write_header(register::FDRI, 75)], 7),
        bad(
            &ready,
            &[write_header(register::FDRI, 0), long_header(13_615)],
            7,
        ),
        bad(&in_hand, &[write_header(register::MFWR, 1)], 7),
        bad(&in_hand, &[write_header(register::MFWR, 3)], 7),
        bad(
            &in_hand,
            &[write_header(register::MFWR, 0), long_header(37)],
            7,
        ),
    ]);
}

#[test]
fn stop_8_check() {
    let mut passed_first = Stream::ready(0);
    passed_first
        .check()
        .words(&[write_header(register::CRC, 2), 0]);
    let mut before_auto = at_address(FRAME_3);
    before_auto.frames_before_check(&frames(1, 3));
    assert_all_stop(&[
        bad(&Stream::synced(), &[write_header(register::CRC, 1), 1], 8),
        bad(
            &Stream::synced(),
            &[write_header(register::CRC, 1), 0x8000_0000],
            8,
        ),
        // Several words are checked one by one.
        bad(&passed_first, &[0x0001_0000], 8),
        bad(&before_auto, &[0x0001_0000], 8),
    ]);
}

#[test]
fn stop_9_no_current_frame() {
    let mut nowhere = at_address(NO_FRAME);
    nowhere
        .words(&[write_header(register::FDRI, 74)])
        .words(&[5; 36]);
    let mut past_the_end = at_address(FRAME_367);
    past_the_end
        .words(&[write_header(register::FDRI, 111)])
        .words(&[6; 73]);
    let mut multiple = in_hand_at(NO_FRAME);
    multiple.words(&[write_header(register::MFWR, 2), 7]);
    assert_all_stop(&[
        bad(&nowhere, &[5], 9),
        bad(&past_the_end, &[6], 9),
        bad(&multiple, &[7], 9),
    ]);
    // The first of the three frames has its place.
    for side in SIDES {
        let state = loaded(&side, &past_the_end);
        assert!(state.frame(367).ends_with(&[0, 0, 0, 6]));
        assert_eq!(state.word(field::CURRENT), u32::MAX);
    }
}
