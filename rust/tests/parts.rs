//! The frame lookups of the proved library against the paper and the reference implementation.

use seamwillow_tests::generate::random::Random;
use seamwillow_tests::harness::ffi::{self, Figures};
use seamwillow_tests::independent::reference::{address_fields, Lookups, PARTS};

/// Frame numbers of the XC3S400 with their addresses, worked by hand in the paper.
const XC3S400_EXAMPLES: [(u32, u32); 10] = [
    (0, 0x0000_0000),
    (3, 0x0002_0000),
    (6, 0x0004_0200),
    (8, 0x0004_0600),
    (139, 0x0012_0200),
    (176, 0x0016_0000),
    (576, 0x0040_0200),
    (577, 0x0200_0000),
    (579, 0x0200_0400),
    (766, 0x0402_2400),
];

/// The paper's table: words a frame and frames, at the device numbers.
const WORDS_AND_FRAMES: [(u32, u32); 8] = [
    (37, 368),
    (53, 615),
    (69, 767),
    (101, 995),
    (133, 1223),
    (165, 1451),
    (197, 1793),
    (213, 1945),
];

const NOT_DEVICES: [u32; 3] = [8, 9, u32::MAX];

/// Every device number with every number of a frame in it, by the paper's count.
fn every_frame() -> impl Iterator<Item = (u32, u32)> {
    (0..)
        .zip(WORDS_AND_FRAMES)
        .flat_map(|(device, (_, frames))| (0..frames).map(move |number| (device, number)))
}

fn assert_same_number(lookups: &Lookups, device: u32, address: u32) {
    assert_eq!(
        ffi::frame_number(device, address),
        lookups.frame_number(device, address),
        "device {device}, address {address:08X}"
    );
}

#[test]
fn the_reference_keeps_the_papers_table() {
    let lookups = Lookups::new();
    for (device, part) in PARTS.iter().enumerate() {
        let computed = (part.frame_words(), part.frame_count());
        assert_eq!(computed, WORDS_AND_FRAMES[device], "{}", part.name);
        assert_eq!(
            lookups.listed(device),
            part.frame_count() as usize,
            "{}",
            part.name
        );
    }
}

#[test]
fn the_papers_examples() {
    let lookups = Lookups::new();
    for (number, address) in XC3S400_EXAMPLES {
        assert_eq!(lookups.frame_address(2, number), (0, address));
        assert_eq!(ffi::frame_address(2, number), (0, address));
        assert_eq!(ffi::frame_number(2, address), (0, number));
    }
}

#[test]
fn every_frame_both_ways() {
    let lookups = Lookups::new();
    for (device, number) in every_frame() {
        let (code, address) = ffi::frame_address(device, number);
        assert_eq!((code, address), lookups.frame_address(device, number));
        assert_eq!(code, 0, "device {device}, number {number}");
        assert_eq!(ffi::frame_number(device, address), (0, number));
    }
}

#[test]
fn numbers_outside_the_part() {
    for (device, (_, frames)) in (0..).zip(WORDS_AND_FRAMES) {
        for number in [frames, frames + 1, u32::MAX] {
            assert_eq!(
                ffi::frame_address(device, number),
                (34, 0),
                "device {device}, number {number}"
            );
        }
    }
}

#[test]
fn unknown_devices() {
    for device in NOT_DEVICES {
        // The later numbers are of no frame of any part: 21 comes before 34.
        for number in [0, 367, 1945, u32::MAX] {
            assert_eq!(ffi::frame_address(device, number), (21, 0));
        }
        // The later addresses name no frame of any part.
        for address in [0, 0x0402_2400, 0x0600_0000, u32::MAX] {
            assert_eq!(ffi::frame_number(device, address), (21, u32::MAX));
        }
    }
}

#[test]
fn every_address_with_one_bit_flipped() {
    let lookups = Lookups::new();
    for (device, number) in every_frame() {
        let (_, address) = lookups.frame_address(device, number);
        for bit in 0..32 {
            let flipped = address ^ (1 << bit);
            assert_same_number(&lookups, device, flipped);
            if !(9..=26).contains(&bit) {
                assert_eq!(ffi::frame_number(device, flipped), (0, number));
            }
        }
    }
}

#[test]
fn every_block_major_and_minor() {
    let lookups = Lookups::new();
    for (device, (_, frames)) in (0..).zip(WORDS_AND_FRAMES) {
        let mut named = 0;
        for address in (0..1 << 18).map(|fields| fields << 9) {
            assert_same_number(&lookups, device, address);
            named += u32::from(ffi::frame_number(device, address) != (0, u32::MAX));
        }
        assert_eq!(named, frames, "device {device}");
    }
}

#[test]
fn the_figures_of_every_part() {
    for (device, part) in (0..).zip(&PARTS) {
        let figures = Figures {
            idcode: part.idcode,
            frame_words: part.frame_words(),
            frames: part.frame_count(),
            memory_bytes: part.memory_bytes() as u64,
        };
        assert_eq!(ffi::part(device), (0, figures), "{}", part.name);
    }
    let none = Figures {
        idcode: 0,
        frame_words: 0,
        frames: 0,
        memory_bytes: 0,
    };
    for device in NOT_DEVICES {
        assert_eq!(ffi::part(device), (21, none), "device {device}");
    }
}

#[test]
fn the_fields_of_a_million_addresses() {
    let mut random = Random::new(2);
    for _ in 0..1_000_000 {
        let address = random.next_u32();
        let fields = ffi::address_fields(address);
        let told = [fields.block, fields.major, fields.minor];
        assert_eq!(told, address_fields(address), "address {address:08X}");
    }
}

#[test]
fn a_million_random_addresses() {
    let lookups = Lookups::new();
    let mut random = Random::new(1);
    let mut named = 0;
    for _ in 0..1_000_000 {
        let device = match random.below(10) {
            device @ 0..=7 => device,
            8 => 8 + random.below(8),
            _ => 8 + random.below(u32::MAX - 7),
        };
        let uniform = random.next_u32();
        // Few of the uniform addresses name a frame; with majors under 8 and minors under 32 many do.
        let address = match random.below(2) {
            0 => uniform,
            _ => uniform & 0xFE0E_3FFF,
        };
        assert_same_number(&lookups, device, address);
        named += u32::from(ffi::frame_number(device, address).1 != u32::MAX);
    }
    assert!(named > 50_000, "only {named} addresses named a frame");
}
