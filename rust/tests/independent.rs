//! Demand 3 on the independent side alone, without the library that is held against it: compiler,
//! loader and reference machine agree.

use seamwillow_tests::generate::random::{self, Random};
use seamwillow_tests::harness::compiler_sides::INDEPENDENT;
use seamwillow_tests::harness::demand3::{check_generated, check_largest, Case};
use seamwillow_tests::harness::sides::{self, assert_same, cut};
use seamwillow_tests::harness::worked_layout;

const LAYOUTS: u64 = 40_000;

/// Loads a stream whole and in pieces, and asserts demand 3.
fn assert_done(random: &mut Random, case: &Case, stream: &[u8]) {
    let end = sides::INDEPENDENT.load(case.start, stream);
    case.assert_done(&end);
    let in_pieces = sides::INDEPENDENT.load_pieces(case.start, &cut(random, stream));
    assert_same(&end, &in_pieces, || format!("{}, in pieces", case.name));
}

#[test]
fn a_stream_by_hand() {
    worked_layout::assert_stream(&INDEPENDENT);
}

#[test]
fn generated_layouts() {
    check_generated(random::seed(24), LAYOUTS, &INDEPENDENT, assert_done);
}

#[test]
fn the_largest_layouts() {
    check_largest(random::seed(25), &INDEPENDENT, assert_done);
}
