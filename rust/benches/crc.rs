//! The proved CRC, called a word at a time through the C interface, against a plain table loop.

use seamwillow_tests::generate::random::Random;
use seamwillow_tests::harness::ffi;
use seamwillow_tests::harness::timing::{best, timed};
use seamwillow_tests::independent::names::register::FDRI;
use seamwillow_tests::independent::tables::Tables;
use std::hint::black_box;
use std::time::Duration;

const WORDS: usize = 1_000_000;
const ROUNDS: usize = 15;

// Both feed to FDRI: nearly every word of a stream is frame data.
fn run_tables(tables: &Tables, words: &[u32]) -> u32 {
    let register = words
        .iter()
        .fold(0, |register, &word| tables.feed(register, FDRI, word));
    u32::from(register.reverse_bits())
}

fn run_proved(words: &[u32]) -> u32 {
    words.iter().fold(0, |crc, &word| ffi::crc(crc, FDRI, word))
}

fn report(name: &str, time: Duration) {
    let words = WORDS as f64 / time.as_secs_f64();
    println!(
        "{name:<12} {words:>12.0} words/s {:>9.1} MB/s",
        words * 4.0 / 1e6
    );
}

fn main() {
    let mut random = Random::new(3);
    let words: Vec<u32> = (0..WORDS).map(|_| random.next_u32()).collect();
    let tables = black_box(Tables::new());
    let [proved, table] = best(ROUNDS, || {
        let (proved_time, proved_crc) = timed(|| run_proved(black_box(&words)));
        let (table_time, table_crc) = timed(|| run_tables(&tables, black_box(&words)));
        assert_eq!(proved_crc, table_crc);
        [proved_time, table_time]
    });
    report("sw_crc", proved);
    report("table loop", table);
    let ratio = table.as_secs_f64() / proved.as_secs_f64();
    println!("sw_crc runs at {ratio:.2} times the speed of the table loop");
}
