//! The proved library on a stream that the maker's tools wrote: its CRC word by word, and a load of
//! everything from the first word of frame data on.
//!
//! The stream is `spiOverJtag_xc3s500evq100.bit` of Debian's package openfpgaloader, for a
//! Spartan-3E part; `.ci/fetch-real-stream` gets it. Every packet in it is of a kind that the scope
//! paper (01) allows and writes a register of the paper's table, so it is walked by the paper's
//! rules alone. The part's IDCODE and its frame length of 97 words are the Spartan-3E's own.

use seamwillow_tests::harness::ffi;
use seamwillow_tests::independent::loader;
use seamwillow_tests::independent::names::command::{DESYNC, RCRC, WCFG};
use seamwillow_tests::independent::names::register::{CMD, CRC, FAR, FDRI, FLR, LOUT};
use seamwillow_tests::independent::names::{field, flag, phase};
use seamwillow_tests::independent::reference::{self, PARTS};
use std::{env, fs};

const VARIABLE: &str = "SEAMWILLOW_REAL_STREAM";
const SYNC: [u8; 4] = [0xAA, 0x99, 0x55, 0x66];

/// A word written to a register, and which word of the stream it is.
#[derive(Clone, Copy)]
struct Write {
    register: u32,
    word: u32,
    at: usize,
}

fn stream_words() -> Vec<u32> {
    let path = env::var_os(VARIABLE).unwrap_or_else(|| {
        panic!("{VARIABLE} is unset: set it to the path that .ci/fetch-real-stream prints")
    });
    let bytes = fs::read(&path)
        .unwrap_or_else(|error| panic!("{VARIABLE} names {}: {error}", path.display()));
    let sync = bytes.windows(4).position(|window| window == SYNC);
    let start = sync.expect("the stream has no sync word") + SYNC.len();
    let words = bytes[start..].chunks_exact(4);
    words
        .map(|word| u32::from_be_bytes([word[0], word[1], word[2], word[3]]))
        .collect()
}

/// Every word that is written from the sync word to DESYNC, auto CRC words as writes to CRC.
fn register_writes(stream: &[u32]) -> Vec<Write> {
    let mut words = stream.iter().copied().enumerate();
    let mut writes = Vec::new();
    let mut open = None;
    while let Some((_, header)) = words.next() {
        let packet = write_packet(header, open);
        open = packet.and_then(|(register, count)| (count == 0).then_some(register));
        let Some((register, count)) = packet.filter(|&(_, count)| count > 0) else {
            continue;
        };
        for _ in 0..count {
            let (at, word) = words.next().expect("the stream ends inside a packet");
            writes.push(Write { register, word, at });
            if (register, word) == (CMD, DESYNC) {
                return writes;
            }
        }
        if register == FDRI {
            let (at, word) = words.next().expect("the stream ends before an auto CRC");
            let register = CRC;
            writes.push(Write { register, word, at });
        }
    }
    panic!("the stream ends before DESYNC");
}

/// The register and the count of a write header, or none for padding and operation 0.
fn write_packet(header: u32, open: Option<u32>) -> Option<(u32, u32)> {
    let register = (header >> 13) & 0x3FFF;
    let count = header & 0x7FF;
    match (header >> 29, (header >> 27) & 3) {
        (0, 0) if header == 0 => None,
        (1, 0) if count == 0 => None,
        (1, 2) => Some((register, count)),
        (2, 2) => {
            let register = open.expect("a type 2 header follows a type 1 write of count 0");
            Some((register, header & 0x07FF_FFFF))
        }
        _ => panic!("the header {header:08X} is of no kind that the paper allows"),
    }
}

/// Each word that was written to CRC, with the CRC register after it.
fn checks(writes: &[Write], feed: fn(u32, u32, u32) -> u32) -> Vec<(u32, u32)> {
    let mut crc = 0;
    let mut command = 0;
    let mut checks = Vec::new();
    for &Write { register, word, .. } in writes.iter().filter(|write| write.register != LOUT) {
        crc = feed(crc, register, word);
        match register {
            CRC => checks.push((word, crc)),
            CMD => command = word,
            _ => {}
        }
        // A command acts when it is written and again at each write to FAR.
        if matches!(register, CMD | FAR) && command == RCRC {
            crc = 0;
        }
    }
    checks
}

#[test]
fn real_stream() {
    let writes = register_writes(&stream_words());
    let passed = [(0x0000_1C8A, 0), (0x0000_5F57, 0)];
    assert_eq!(checks(&writes, ffi::crc), passed);
    assert_eq!(checks(&writes, reference::crc), passed);

    let first = |register| writes.iter().position(|write| write.register == register);
    let data = first(FDRI).expect("the stream writes FDRI");
    // The first write to CRC is the auto CRC word, straight after the frame data.
    let auto = first(CRC).expect("the stream writes CRC");
    assert!(writes[data..auto]
        .iter()
        .all(|write| write.register == FDRI));
    let frame_words = writes[first(FLR).expect("the stream writes FLR")].word as usize + 1;
    assert!(auto - data > 1000);
    assert_eq!((auto - data) % frame_words, 0);

    for place in [data, (data + auto) / 2, auto - 1] {
        let mut broken = writes.clone();
        broken[place].word ^= 1 << (place % 32);
        let (word, crc) = checks(&broken, ffi::crc)[0];
        assert_eq!(word, 0x0000_1C8A);
        assert_ne!(crc, 0, "word {place} was changed");
    }
}

/// The largest part: its memory holds all frame data of the stream.
const DEVICE: u32 = 7;
/// Words of the record's image that `field` leaves out.
const LEFT: usize = 3;
const FILLED: usize = 4;

/// The words of a record's image, inside an FDRI packet with so many words left. No part of the
/// paper has the stream's frames of 97 words, so the packet stands within a frame: it ends whole.
fn before_the_data(left: u32, crc: u32) -> Vec<u32> {
    let length = PARTS[DEVICE as usize].frame_words();
    let mut words = vec![0; 237];
    words[field::DEVICE] = DEVICE;
    words[field::PHASE] = phase::DATA;
    words[field::ARGUMENT] = FDRI;
    words[LEFT] = left;
    words[FILLED] = (length - left % length) % length;
    words[field::FLAGS] = flag::IDCODE_ACCEPTED | flag::FLR_ACCEPTED;
    words[field::CRC] = crc;
    words[field::register(CMD)] = WCFG;
    words
}

fn bytes(words: &[u32]) -> Vec<u8> {
    words.iter().flat_map(|word| word.to_be_bytes()).collect()
}

fn word(record: &[u8], field: usize) -> u32 {
    let bytes = &record[4 * field..];
    u32::from_be_bytes([bytes[0], bytes[1], bytes[2], bytes[3]])
}

type Load = fn(&mut [u8], &mut [u8], &[u8]) -> (u32, u64);

#[test]
fn real_stream_through_a_load() {
    let stream = stream_words();
    let writes = register_writes(&stream);
    let first = |register| writes.iter().position(|write| write.register == register);
    let data = first(FDRI).expect("the stream writes FDRI");
    let left = first(CRC).expect("the stream writes CRC") - data;
    // What is written before the frame data reaches the record as its CRC register.
    let crc = writes[..data].iter().fold(0, |crc, write| {
        let resets = (write.register, write.word) == (CMD, RCRC);
        let fed = reference::crc(crc, write.register, write.word);
        if resets {
            0
        } else {
            fed
        }
    });
    let before = before_the_data(left as u32, crc);
    let rest = &stream[writes[data].at..=writes[writes.len() - 1].at];
    let part = &PARTS[DEVICE as usize];
    let pad = before[FILLED] as usize;
    let stored = pad + left - part.frame_words() as usize;

    for load in [ffi::load as Load, loader::load as Load] {
        let (mut record, mut memory) = (bytes(&before), vec![0; part.memory_bytes()]);
        let answer = load(&mut record, &mut memory, &bytes(rest));
        assert_eq!(answer, (0, 4 * rest.len() as u64));
        // The auto CRC word passed, the CRC write too, and so START and DESYNC have started the part.
        assert_eq!(word(&record, field::FLAGS) & flag::STARTED, flag::STARTED);
        assert_eq!(word(&record, field::PHASE), phase::HUNTING);
        // Every frame but the packet's last is stored as it stands in the stream.
        assert_eq!(memory[4 * pad..4 * stored], bytes(&rest[..stored - pad]));

        // Where the auto CRC word is missing the next header is taken for it; a changed bit fails there too.
        let mut missing = rest.to_vec();
        missing.remove(left);
        let mut changed = rest.to_vec();
        changed[left / 2] ^= 1;
        for wrong in [missing, changed] {
            let answer = load(&mut bytes(&before), &mut memory, &bytes(&wrong));
            assert_eq!(answer, (8, 4 * (left as u64 + 1)));
        }
    }
}
