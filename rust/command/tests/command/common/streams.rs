//! Streams and layouts, built by the tests' own writer, and the same in other clothes.

use seamwillow_tests::harness::worked::{FRAME_3, NO_FRAME};
use seamwillow_tests::independent::layout::number;
use seamwillow_tests::independent::names::{command, register};
use seamwillow_tests::independent::reference::{LOOKUPS, PARTS};
use seamwillow_tests::independent::stream::{
    full_configuration, multiple_frame_write, write_header, Stream,
};

/// Words of frames for a part; frame `n` has only bytes of value `n + 1`.
pub fn frames(device: u32, count: u8) -> Vec<u32> {
    let words = PARTS[device as usize].frame_words() as usize;
    let frame = |value: u8| vec![u32::from_be_bytes([value; 4]); words];
    (1..=count).flat_map(frame).collect()
}

/// A stream that has stored two frames from frame 3 on.
pub fn begun(device: u32) -> Stream {
    let frame_words = PARTS[device as usize].frame_words();
    let mut stream = Stream::ready(device);
    stream
        .command(command::WCFG)
        .write(register::FAR, &[FRAME_3])
        .padded_frames(&frames(device, 2), frame_words);
    stream
}

/// A good stream that stores frames 3 and 4.
pub fn partial(device: u32) -> Vec<u8> {
    let mut stream = begun(device);
    stream.check().command(command::DESYNC);
    stream.into_bytes()
}

/// A good stream that stores one frame at frames 1 and 3 and at the last one.
pub fn multiple(device: u32) -> Vec<u8> {
    let last = PARTS[device as usize].frame_count() - 1;
    multiple_frame_write(&LOOKUPS, device, &frames(device, 1), &[1, 3, last])
}

/// A full configuration of frames with no two words the same.
pub fn full(device: u32) -> Vec<u8> {
    let words = 1..=(PARTS[device as usize].memory_bytes() / 4) as u32;
    let memory: Vec<u32> = words.map(|place| place.wrapping_mul(0x9E37_79B9)).collect();
    full_configuration(device, &memory)
}

/// A stream for the XC3S50 that stores frames 3 and 4 and then stops with a number.
pub fn stopped(number: u32) -> Vec<u8> {
    let mut stream = begun(0);
    match number {
        1 => stream.words(&[0xE000_0000]),
        2 => stream.words(&[write_header(register::STAT, 1), 0]),
        3 => stream.words(&[0x2800_E001]),
        4 => stream.write(register::IDCODE, &[PARTS[1].idcode]),
        5 => stream.write(register::FLR, &[PARTS[1].frame_words() - 1]),
        6 => stream.command(command::LFRM).frames(&frames(0, 1)),
        7 => stream.words(&[write_header(register::FDRI, 36)]),
        8 => stream.write(register::CRC, &[0x1234]),
        9 => stream
            .write(register::FAR, &[NO_FRAME])
            .frames(&frames(0, 2)),
        10 => stream.command(14),
        _ => panic!("{number} is no stop"),
    };
    stream.no_ops(2);
    stream.into_bytes()
}

/// A stream that does more than write frames; the part starts.
pub fn starting() -> Vec<u8> {
    let mut stream = begun(0);
    stream
        .command(command::AGHIGH)
        .write(register::MASK, &[1])
        .write(register::CTL, &[1])
        .write(register::LOUT, &[1, 2, 3])
        .command(command::LFRM)
        .command(command::START)
        .check()
        .command(command::DESYNC);
    stream.into_bytes()
}

/// A good stream but for its last check, which is left out.
pub fn unchecked() -> Vec<u8> {
    let mut stream = Stream::ready(0);
    stream
        .command(command::WCFG)
        .frames(&frames(0, 1))
        .multiple_writes([FRAME_3])
        .command(command::DESYNC);
    stream.into_bytes()
}

/// The header that stands before the stream in the maker's files, as in 001's Figure 17.
pub fn behind_bit_header(stream: &[u8]) -> Vec<u8> {
    let mut file = b"\x00\x09\x0F\xF0\x0F\xF0\x0F\xF0\x0F\xF0\x00\x00\x01".to_vec();
    for (letter, field) in [
        (b'a', "desk.ncd"),
        (b'b', "3s50tq144"),
        (b'c', "2004/01/06"),
        (b'd', "11:30:58"),
    ] {
        file.extend([letter, 0, field.len() as u8 + 1]);
        file.extend(field.bytes().chain([0]));
    }
    file.push(b'e');
    file.extend((stream.len() as u32).to_be_bytes());
    file.extend(stream);
    file
}

/// The header of a gzip file, and packed bytes that hold no sync word.
pub fn gzip() -> Vec<u8> {
    let mut file = b"\x1F\x8B\x08\x08\x00\x00\x00\x00\x00\x03good.bit\x00".to_vec();
    file.extend(b"\xFB\xFF\xFF\xFF\xAA\x99\xA1\x69\x06\x0D\x0C\x8C\x0C\x0C\xEC\x0C");
    file
}

/// The words of a stream in hexadecimal digits, one a line.
pub fn hex_text(stream: &[u8]) -> Vec<u8> {
    let digits = |word: &[u8]| -> String { word.iter().map(|it| format!("{it:02X}")).collect() };
    let lines = stream.chunks(4).map(|word| digits(word) + "\n");
    lines.collect::<String>().into_bytes()
}

/// The stream with its bytes in every group of `length` turned round.
pub fn turned(stream: &[u8], length: usize) -> Vec<u8> {
    let turn = |group: &[u8]| -> Vec<u8> { group.iter().rev().copied().collect() };
    stream.chunks(length).flat_map(turn).collect()
}

pub fn bits_reversed(stream: &[u8]) -> Vec<u8> {
    stream.iter().map(|byte| byte.reverse_bits()).collect()
}

/// The numbers of a layout, as 01 codes them.
fn coded(numbers: &[u32]) -> Vec<u8> {
    let coded = |number: &u32| number::coded(u64::from(*number));
    numbers.iter().flat_map(coded).collect()
}

/// A layout's beginning: edition 1, the device, the number of steps.
pub fn layout(device: u32, steps: &[Vec<u8>]) -> Vec<u8> {
    let mut layout = coded(&[1, device, steps.len() as u32]);
    layout.extend(steps.concat());
    layout
}

/// A step of kind 1 of a part.
pub fn frame_write(device: u32, first: u32, count: u8) -> Vec<u8> {
    let mut step = coded(&[1, first, u32::from(count)]);
    let words = frames(device, count);
    step.extend(words.iter().flat_map(|word| word.to_be_bytes()));
    step
}

/// A step of kind 2 of a part.
pub fn multi_frame_write(device: u32, targets: &[u32]) -> Vec<u8> {
    let mut step = coded(&[2, targets.len() as u32]);
    let words = frames(device, 1);
    step.extend(words.iter().flat_map(|word| word.to_be_bytes()));
    step.extend(coded(targets));
    step
}
