//! Random numbers that are the same in every run.

use std::env;

const VARIABLE: &str = "SEAMWILLOW_SEED";

/// The seed of a test: `fixed`, unless the environment gives another; it is printed either way.
pub fn seed(fixed: u64) -> u64 {
    let seed = env::var(VARIABLE).map_or(fixed, |text| {
        text.parse()
            .unwrap_or_else(|error| panic!("{VARIABLE} is {text}: {error}"))
    });
    println!("seed {seed}; {VARIABLE} gives another");
    seed
}

/// The generator splitmix64.
pub struct Random {
    state: u64,
}

impl Random {
    pub fn new(seed: u64) -> Self {
        Self { state: seed }
    }

    /// The numbers of one case of a test, so that a case can be repeated alone.
    pub fn of_case(seed: u64, case: u64) -> Self {
        // Apart from the cases of the seeds nearby.
        Self::new(seed.rotate_left(32) ^ case)
    }

    pub fn next_u32(&mut self) -> u32 {
        self.state = self.state.wrapping_add(0x9E37_79B9_7F4A_7C15);
        let mut mixed = self.state;
        mixed = (mixed ^ (mixed >> 30)).wrapping_mul(0xBF58_476D_1CE4_E5B9);
        mixed = (mixed ^ (mixed >> 27)).wrapping_mul(0x94D0_49BB_1331_11EB);
        // The upper half is mixed best.
        ((mixed ^ (mixed >> 31)) >> 32) as u32
    }

    /// Bytes of any values.
    pub fn bytes(&mut self, count: usize) -> Vec<u8> {
        (0..count).map(|_| self.next_u32() as u8).collect()
    }

    /// A number under `bound`; the bias of the remainder does not matter to a test.
    pub fn below(&mut self, bound: u32) -> u32 {
        self.next_u32() % bound
    }

    /// True once in `bound` times on average.
    pub fn one_in(&mut self, bound: u32) -> bool {
        self.below(bound) == 0
    }

    /// One of the choices, which are not empty.
    pub fn pick<T: Copy>(&mut self, choices: &[T]) -> T {
        choices[self.below(choices.len() as u32) as usize]
    }

    /// A place in a list of `length`, its end among them.
    pub fn place(&mut self, length: usize) -> usize {
        self.below(length as u32 + 1) as usize
    }
}
