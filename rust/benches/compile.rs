//! The proved compiler against a plain Rust one: every frame of each part in one step, and steps
//! of one frame to every place.

use seamwillow_tests::generate::layouts;
use seamwillow_tests::generate::random::Random;
use seamwillow_tests::harness::ffi;
use seamwillow_tests::harness::timing::{best, speeds, timed};
use seamwillow_tests::independent::layout;
use seamwillow_tests::independent::layout::{number, Desk};
use seamwillow_tests::independent::names::{command, register, SYNC};
use seamwillow_tests::independent::reference::{Lookups, PARTS};
use seamwillow_tests::independent::stream::{long_header, write_header};
use seamwillow_tests::independent::tables::Tables;
use std::hint::black_box;
use std::mem;
use std::time::Duration;

const ROUNDS: usize = 25;
const XC3S5000: u32 = 7;
/// So many steps to every frame of an XC3S5000 give about as long a stream as all its frames once.
const STEPS: u32 = 40;

/// A compiler as one would write it for speed alone: one pass over the layout, frames copied as
/// slices, nothing judged that a good layout does not need. None is its answer where it must stop.
struct Plain<'a> {
    tables: &'a Tables,
    lookups: &'a Lookups,
    device: u32,
    frame_bytes: usize,
    crc: u16,
    /// The layout that is still to be read, and the output to be written.
    layout: &'a [u8],
    output: &'a mut [u8],
}

impl<'a> Plain<'a> {
    /// The stream's length.
    fn compile(mut self) -> Option<u64> {
        let room = self.output.len();
        let part = &PARTS[self.device as usize];
        if (self.number()?, self.number()?) != (1, self.device) {
            return None;
        }
        self.put([u32::MAX, SYNC])?;
        self.write(register::CMD, [command::RCRC])?;
        self.crc = 0;
        self.write(register::FLR, [part.frame_words() - 1])?;
        self.write(register::IDCODE, [part.idcode])?;
        for _ in 0..self.number()? {
            self.step()?;
        }
        self.put([write_header(register::CRC, 1)])?;
        self.check()?;
        self.write(register::CMD, [command::DESYNC])?;
        let is_at_end = self.layout.is_empty();
        is_at_end.then_some((room - self.output.len()) as u64)
    }

    fn step(&mut self) -> Option<()> {
        let kind = self.number()?;
        self.write(register::CMD, [command::WCFG])?;
        match kind {
            1 => {
                let first = self.number()?;
                let count = self.number()?;
                self.address(first)?;
                self.frames(count as usize, self.frame_bytes)
            }
            2 => {
                let count = self.number()?;
                self.frames(1, 0)?;
                self.targets(count)
            }
            _ => None,
        }
    }

    fn targets(&mut self, count: u32) -> Option<()> {
        for index in 0..count {
            let target = self.number()?;
            self.address(target)?;
            if index == 0 {
                self.write(register::CMD, [command::MFWR])?;
            }
            self.write(register::MFWR, [0, 0])?;
        }
        Some(())
    }

    fn number(&mut self) -> Option<u32> {
        let (value, length) = number::read(self.layout).ok()?;
        self.layout = &self.layout[length..];
        Some(value)
    }

    /// The output's next bytes, to be written.
    fn place(&mut self, length: usize) -> Option<&'a mut [u8]> {
        let (place, rest) = mem::take(&mut self.output).split_at_mut_checked(length)?;
        self.output = rest;
        Some(place)
    }

    fn put<const N: usize>(&mut self, words: [u32; N]) -> Option<()> {
        let bytes = words.map(u32::to_be_bytes);
        let place = self.place(4 * N)?;
        place.copy_from_slice(bytes.as_flattened());
        Some(())
    }

    fn write<const N: usize>(&mut self, register: u32, words: [u32; N]) -> Option<()> {
        self.put([write_header(register, N as u32)])?;
        for word in words {
            self.crc = self.tables.feed(self.crc, register, word);
        }
        self.put(words)
    }

    fn address(&mut self, frame: u32) -> Option<()> {
        let (code, address) = self.lookups.frame_address(self.device, frame);
        (code == 0).then_some(())?;
        self.write(register::FAR, [address])
    }

    /// The CRC word that passes: the reflected register itself, as equal bits leave zeros.
    fn check(&mut self) -> Option<()> {
        let word = mem::take(&mut self.crc);
        self.put([u32::from(word)])
    }

    /// The layout's next frames and some zero bytes to FDRI, with the auto CRC word.
    fn frames(&mut self, count: usize, pad: usize) -> Option<()> {
        let (frames, rest) = self.layout.split_at_checked(count * self.frame_bytes)?;
        self.layout = rest;
        let length = frames.len() + pad;
        let header = write_header(register::FDRI, 0);
        self.put([header, long_header(length as u32 / 4)])?;
        let place = self.place(length)?;
        place[..frames.len()].copy_from_slice(frames);
        place[frames.len()..].fill(0);
        self.crc = place.as_chunks().0.iter().fold(self.crc, |crc, bytes| {
            let word = u32::from_be_bytes(*bytes);
            self.tables.feed(crc, register::FDRI, word)
        });
        self.check()
    }
}

/// What the plain compiler has before it starts.
struct Prepared {
    tables: Tables,
    lookups: Lookups,
}

impl Prepared {
    fn compile(&self, device: u32, layout: &[u8], output: &mut [u8]) -> Option<u64> {
        let plain = Plain {
            tables: &self.tables,
            lookups: &self.lookups,
            device,
            frame_bytes: PARTS[device as usize].frame_bytes(),
            crc: 0,
            layout,
            output,
        };
        plain.compile()
    }

    /// The times of both on one layout; asserts that both wrote the same.
    fn round(&self, desk: Desk, layout: &[u8], length: u64) -> [Duration; 2] {
        // Written beforehand, so that no time goes into new memory.
        let mut output = vec![0xFF; length as usize];
        let mut plain_output = output.clone();
        let (proved, answer) = timed(|| ffi::compile(desk, black_box(layout), &mut output));
        assert_eq!(answer, (0, length));
        let compile = || self.compile(desk.device, black_box(layout), &mut plain_output);
        let (plain, answer) = timed(compile);
        assert_eq!(answer, Some(length));
        assert!(output == plain_output);
        [proved, plain]
    }

    fn report(&self, name: &str, device: u32, layout: &[u8]) {
        let desk = Desk::whole(device);
        let length = layout::check(desk, layout).expect("the layout is accepted");
        let times = best(ROUNDS, || self.round(desk, layout, length));
        let [proved, plain] = speeds(length as usize, times);
        println!(
            "{name:<17} {length:>8} bytes: sw_compile {proved:>7.1} MB/s, plain Rust {plain:>7.1} MB/s, ratio {:.2}",
            proved / plain
        );
    }
}

fn main() {
    let mut random = Random::new(37);
    let prepared = black_box(Prepared {
        tables: Tables::new(),
        lookups: Lookups::new(),
    });
    for (device, part) in (0..).zip(&PARTS) {
        let layout = layouts::every_frame(&mut random, device);
        prepared.report(part.name, device, &layout);
    }
    let layout = layouts::to_every_frame(&mut random, XC3S5000, STEPS);
    prepared.report("XC3S5000, targets", XC3S5000, &layout);
}
