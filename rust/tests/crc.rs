//! The CRC of the proved library against the paper and the reference implementation.

use seamwillow_tests::generate::random::Random;
use seamwillow_tests::harness::ffi;
use seamwillow_tests::independent::reference;

/// The address of the CRC register.
const CRC: u32 = 0;

fn assert_same_crc(crc: u32, reg: u32, word: u32) {
    assert_eq!(
        ffi::crc(crc, reg, word),
        reference::crc(crc % 65_536, reg % 32, word),
        "crc {crc:08X}, register {reg:08X}, word {word:08X}"
    );
}

#[test]
fn the_papers_example() {
    assert_eq!(reference::crc(0, CRC, 0x8000_0000), 0x80C3);
    assert_eq!(ffi::crc(0, CRC, 0x8000_0000), 0x80C3);
}

#[test]
fn edge_values() {
    let mut edges: Vec<u32> = (0..32).map(|bit| 1 << bit).collect();
    edges.extend([0, 31, 33, 0xFFFF, 0x1_0001, 0xFFFF_0000, u32::MAX]);
    for &crc in &edges {
        for &reg in &edges {
            for &word in &edges {
                assert_same_crc(crc, reg, word);
            }
        }
    }
}

#[test]
fn a_million_random_feeds() {
    let mut random = Random::new(2);
    for _ in 0..1_000_000 {
        assert_same_crc(random.next_u32(), random.next_u32(), random.next_u32());
    }
}

#[test]
fn the_check_word_of_every_crc_passes_alone() {
    for crc in 0..65_536 {
        let word = reference::check_word(crc);
        assert!(word < 65_536);
        assert_eq!(ffi::crc(crc, CRC, word), 0, "crc {crc:04X}");
        for bit in 0..32 {
            let wrong = word ^ (1 << bit);
            assert_ne!(ffi::crc(crc, CRC, wrong), 0, "crc {crc:04X}, bit {bit}");
        }
    }
}
