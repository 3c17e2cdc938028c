//! The proved loader against a plain Rust one, on a full configuration of each part.

use seamwillow_tests::generate::random::Random;
use seamwillow_tests::harness::ffi;
use seamwillow_tests::harness::sides::image_word;
use seamwillow_tests::harness::timing::{best, speeds, timed};
use seamwillow_tests::independent::loader::RECORD_BYTES;
use seamwillow_tests::independent::names::{command, field, flag, register, SYNC};
use seamwillow_tests::independent::reference::{Lookups, Part, PARTS};
use seamwillow_tests::independent::stream;
use seamwillow_tests::independent::tables::Tables;
use std::hint::black_box;
use std::time::Duration;

const ROUNDS: usize = 25;
/// What the part itself takes.
const NEEDED: f64 = 50.0;

/// A loader as one would write it for speed alone: by the word, frames copied as slices, no record
/// to hand over between pieces. None is its answer to whatever a full configuration has not.
struct Plain<'a> {
    tables: &'a Tables,
    lookups: &'a Lookups,
    device: u32,
    registers: [u32; 15],
    crc: u16,
    frame: u32,
    is_known: bool,
    is_sized: bool,
    is_pending: bool,
    has_passed: bool,
    is_started: bool,
}

impl<'a> Plain<'a> {
    fn new(tables: &'a Tables, lookups: &'a Lookups, device: u32) -> Self {
        Self {
            tables,
            lookups,
            device,
            registers: [0; 15],
            crc: 0,
            frame: 0,
            is_known: false,
            is_sized: false,
            is_pending: false,
            has_passed: false,
            is_started: false,
        }
    }

    fn part(&self) -> &'static Part {
        &PARTS[self.device as usize]
    }

    fn load(&mut self, memory: &mut [u8], stream: &[u8]) -> Option<()> {
        let mut rest = stream;
        while let Some(place) = rest
            .windows(4)
            .position(|bytes| bytes == SYNC.to_be_bytes())
        {
            rest = self.packets(memory, &rest[place + 4..])?;
        }
        Some(())
    }

    /// Obeys packets up to DESYNC; the bytes after it.
    fn packets<'b>(&mut self, memory: &mut [u8], mut rest: &'b [u8]) -> Option<&'b [u8]> {
        let mut open = 0;
        while let Some((header, after)) = next_word(rest) {
            rest = after;
            let count = match header >> 27 {
                0b0_0100 => continue,
                0b0_0110 => {
                    open = (header >> 13) & 0x3FFF;
                    header & 0x7FF
                }
                0b0_1010 => header & 0x07FF_FFFF,
                _ => return None,
            };
            let (data, after) = rest.split_at_checked(4 * count as usize)?;
            rest = after;
            if open == register::FDRI && count > 0 {
                self.write_frames(memory, data)?;
                let (check, after) = next_word(rest)?;
                rest = after;
                self.write(register::CRC, check)?;
                continue;
            }
            for bytes in data.chunks_exact(4) {
                self.write(open, next_word(bytes)?.0)?;
            }
            if open == register::CMD && self.registers[open as usize] == command::DESYNC {
                return Some(rest);
            }
        }
        Some(rest)
    }

    fn write_frames(&mut self, memory: &mut [u8], data: &[u8]) -> Option<()> {
        let length = self.part().frame_bytes();
        let is_ready = self.is_known && self.is_sized;
        let is_commanded = self.registers[register::CMD as usize] == command::WCFG;
        if !is_ready || !is_commanded || !data.len().is_multiple_of(length) {
            return None;
        }
        for (index, frame) in data.chunks_exact(length).enumerate() {
            self.crc = frame.as_chunks().0.iter().fold(self.crc, |crc, bytes| {
                let word = u32::from_be_bytes(*bytes);
                self.tables.feed(crc, register::FDRI, word)
            });
            // The last is the pad frame.
            if (index + 1) * length < data.len() {
                let place = length * self.frame as usize;
                memory
                    .get_mut(place..place + length)?
                    .copy_from_slice(frame);
                self.frame += 1;
            }
        }
        Some(())
    }

    fn write(&mut self, register: u32, word: u32) -> Option<()> {
        let part = self.part();
        self.crc = self.tables.feed(self.crc, register, word);
        *self.registers.get_mut(register as usize)? = word;
        match register {
            register::CRC if self.crc != 0 => return None,
            register::CRC => self.has_passed = true,
            register::FAR => (_, self.frame) = self.lookups.frame_number(self.device, word),
            register::IDCODE if word == part.idcode => self.is_known = true,
            register::FLR if word + 1 == part.frame_words() => self.is_sized = true,
            register::COR | register::MASK | register::CTL | register::CMD => {}
            _ => return None,
        }
        if matches!(register, register::CMD | register::FAR) {
            self.act();
        }
        Some(())
    }

    fn act(&mut self) {
        match self.registers[register::CMD as usize] {
            command::RCRC => self.crc = 0,
            command::START => (self.is_pending, self.has_passed) = (true, false),
            command::DESYNC => self.is_started |= self.is_pending && self.has_passed,
            _ => {}
        }
    }
}

fn next_word(bytes: &[u8]) -> Option<(u32, &[u8])> {
    let (word, rest) = bytes.split_first_chunk()?;
    Some((u32::from_be_bytes(*word), rest))
}

/// The times of both on one stream; asserts that both ended alike.
fn round(device: u32, stream: &[u8], tables: &Tables, lookups: &Lookups) -> [Duration; 2] {
    let memory_bytes = PARTS[device as usize].memory_bytes();
    let mut record = [0; RECORD_BYTES];
    let mut memory = vec![0xFF; memory_bytes];
    assert_eq!(ffi::power_on(device, &mut record, &mut memory), 0);
    let (proved, answer) = timed(|| ffi::load(&mut record, &mut memory, black_box(stream)));
    assert_eq!(answer, (0, stream.len() as u64));
    assert_ne!(image_word(&record, field::FLAGS) & flag::STARTED, 0);

    // Written beforehand, as the power-on does for the other.
    let mut plain_memory = vec![0xFF; memory_bytes];
    plain_memory.fill(0);
    let mut loader = Plain::new(tables, lookups, device);
    let (plain, answer) = timed(|| loader.load(&mut plain_memory, black_box(stream)));
    assert!(answer.is_some() && loader.is_started);
    assert!(memory == plain_memory);
    [proved, plain]
}

fn main() {
    let mut random = Random::new(15);
    let tables = black_box(Tables::new());
    let lookups = Lookups::new();
    for (device, part) in (0..).zip(&PARTS) {
        let count = part.memory_bytes() / 4;
        let frames: Vec<u32> = (0..count).map(|_| random.next_u32()).collect();
        let stream = stream::full_configuration(device, &frames);
        let times = best(ROUNDS, || round(device, &stream, &tables, &lookups));
        let [proved, plain] = speeds(stream.len(), times);
        let verdict = if proved > NEEDED {
            "above"
        } else {
            "NOT ABOVE"
        };
        println!(
            "{:<9} {:>8} bytes: sw_load {proved:>7.1} MB/s, plain Rust {plain:>7.1} MB/s, ratio {:.2}; {verdict} {NEEDED} MB/s",
            part.name,
            stream.len(),
            proved / plain
        );
    }
}
