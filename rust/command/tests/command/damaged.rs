//! Good streams that were cut, damaged or put into other clothes: the verdict is still what the
//! independent loader makes of the bytes, or a word on what the file looks like.

use crate::common::expected::{memories, Expected};
use crate::common::streams::{
    behind_bit_header, bits_reversed, frame_write, gzip, hex_text, layout, multi_frame_write,
    multiple, partial, turned,
};
use crate::common::{Scratch, Told};
use seamwillow_tests::harness::json::Value;
use seamwillow_tests::independent::layout::Desk;
use seamwillow_tests::independent::reference::PARTS;

/// Files that are given to one run.
const IN_A_RUN: usize = 100;

/// The frames that the good streams may write.
fn desk(device: u32) -> Desk {
    Desk {
        device,
        first: 3,
        count: 2,
    }
}

/// Judges streams of a part and holds each verdict against the independent loader; how many pass.
fn judge(scratch: &Scratch, device: u32, streams: &[Vec<u8>]) -> usize {
    let mut memory = memories().swap_remove(device as usize);
    let part = PARTS[device as usize].name;
    let mut passing = 0;
    for streams in streams.chunks(IN_A_RUN) {
        let mut line = format!("check --json --part {part} --frames 3:2");
        for (number, stream) in streams.iter().enumerate() {
            scratch.write(number.to_string(), stream);
            line += &format!(" {number}");
        }
        let told = scratch.run(&line);
        assert_eq!(told.err, "");
        let verdicts = Value::of(&told.text());
        assert_eq!(verdicts.list().len(), streams.len());
        let before = passing;
        for (verdict, stream) in verdicts.list().iter().zip(streams) {
            let expected = Expected::of(device, &mut memory, stream);
            let desk = Some(desk(device));
            let case = format!("{part}, {} bytes", stream.len());
            expected.assert_told(verdict, desk, stream, &case);
            passing += usize::from(expected.verdict(desk) == "PASS");
        }
        let all_pass = passing - before == streams.len();
        assert_eq!(told.status, i32::from(!all_pass));
    }
    passing
}

#[test]
fn cut_at_every_tenth_byte() {
    let scratch = Scratch::new("cut");
    for device in 0..8 {
        for stream in [partial(device), multiple(device)] {
            let lengths = (0..stream.len()).step_by(10);
            let cut: Vec<Vec<u8>> = lengths.map(|length| stream[..length].to_vec()).collect();
            assert_eq!(judge(&scratch, device, &cut), 0, "no cut stream is whole");
        }
        let passing = judge(&scratch, device, &[partial(device)]);
        assert_eq!(passing, 1, "device {device}");
    }
}

#[test]
fn every_bit_flipped() {
    let scratch = Scratch::new("flipped");
    let stream = partial(0);
    let flipped = |bit: usize| {
        let mut stream = stream.clone();
        stream[bit / 8] ^= 1 << (bit % 8);
        stream
    };
    let flipped: Vec<Vec<u8>> = (0..8 * stream.len()).map(flipped).collect();
    // What stands before the sync word does nothing, headers have ignored bits, and after the auto
    // CRC word some words may be others.
    let passing = judge(&scratch, 0, &flipped);
    println!("{passing} of {} flipped streams pass", flipped.len());
    assert!((32..=64).contains(&passing), "{passing}");
}

/// Asserts that a file fails for want of a sync word, and what it is taken for.
fn assert_looks_like(name: &str, bytes: &[u8], words: &str) {
    let scratch = Scratch::new(&format!("looks-{name}"));
    scratch.write(name, bytes);
    let told = scratch.run(&format!("check --json {name}"));
    let verdict = Value::of(&told.text()).list()[0].clone();
    assert_eq!((told.status, told.err.as_str()), (1, ""), "{name}");
    let [question] = verdict.get("questions").list() else {
        panic!("{verdict:?}");
    };
    assert_eq!(question.get("name").text(), "sync", "{name}");
    let said = question.get("words").text();
    assert!(said.contains(words), "{name}: {said}");
    let explained = scratch.run(&format!("explain {name}"));
    explained.assert_told(1, words);
}

#[test]
fn damaged_sync_words() {
    let scratch = Scratch::new("sync");
    let stream = partial(0);
    for bit in 0..32 {
        let mut damaged = stream.clone();
        damaged[4 + bit / 8] ^= 1 << (bit % 8);
        let told = Told::of_input(scratch.command(["check", "-"]), &damaged);
        assert_eq!((told.status, told.err.as_str()), (1, ""), "bit {bit}");
        let first =
            "FAIL standard input: part unknown, no range given\n  NO   no sync word in 520 bytes";
        assert!(told.text().starts_with(first), "{}", told.text());
    }
}

#[test]
fn other_orders_of_bytes_and_bits() {
    for device in 0..8 {
        for stream in [partial(device), behind_bit_header(&partial(device))] {
            let name = format!("order-{device}");
            assert_looks_like(&name, &bits_reversed(&stream), "the bits of every byte");
            assert_looks_like(&name, &turned(&stream, 2), "the bytes of every pair");
            assert_looks_like(&name, &turned(&stream, 4), "the bytes of every word");
        }
    }
}

#[test]
fn files_that_are_no_streams() {
    let good = [frame_write(0, 3, 2), multi_frame_write(0, &[1, 367])];
    assert_looks_like("layout", &layout(0, &good), "a layout for the XC3S50");
    let wide = [frame_write(7, 1944, 1)];
    assert_looks_like(
        "wide-layout",
        &layout(7, &wide),
        "a layout for the XC3S5000",
    );
    assert_looks_like("gzip", &gzip(), "gzip");
    assert_looks_like("text", &hex_text(&partial(0)), "text");
    assert_looks_like("empty", &[], "empty");
    assert_looks_like("zeros", &[0; 999], "999 bytes of 00");
    for part in &PARTS {
        let mut image = vec![0; part.memory_bytes()];
        image[100] = 1;
        let words = format!("a memory image of the {}", part.name);
        assert_looks_like("image", &image, &words);
    }
}

#[test]
fn behind_a_bit_header() {
    let scratch = Scratch::new("header");
    for device in 0..8 {
        let good = behind_bit_header(&partial(device));
        let mut damaged = good.clone();
        damaged[400] ^= 1;
        assert_eq!(judge(&scratch, device, &[good]), 1, "device {device}");
        assert_eq!(judge(&scratch, device, &[damaged]), 0, "device {device}");
    }
}
