//! Random numbers that a seed repeats.

use std::env;
use std::ops::RangeInclusive;
use std::thread;

const DEFAULT_SEED: u64 = 20_230_403;

/// The generator splitmix64. If the test that owns it fails, it prints the
/// seed of the run.
pub struct Generator {
    state: u64,
    seed: u64,
}

impl Generator {
    /// A generator for one test. The seed of the run is the environment
    /// variable `PENSION_SEED`; the test's name makes the tests differ.
    pub fn for_test(name: &str) -> Self {
        let seed = match env::var("PENSION_SEED") {
            Ok(text) => text.parse().expect("PENSION_SEED is a decimal number"),
            Err(_) => DEFAULT_SEED,
        };
        let state = name
            .bytes()
            .fold(seed, |state, byte| state.wrapping_mul(0x0000_0100_0000_01B3) ^ u64::from(byte));
        Generator { state, seed }
    }

    pub fn next(&mut self) -> u64 {
        self.state = self.state.wrapping_add(0x9E37_79B9_7F4A_7C15);
        let mut mixed = self.state;
        mixed = (mixed ^ (mixed >> 30)).wrapping_mul(0xBF58_476D_1CE4_E5B9);
        mixed = (mixed ^ (mixed >> 27)).wrapping_mul(0x94D0_49BB_1331_11EB);
        mixed ^ (mixed >> 31)
    }

    /// A number below `end`, which is not 0.
    pub fn below(&mut self, end: usize) -> usize {
        (self.next() % end as u64) as usize
    }

    /// A number of a range.
    pub fn within(&mut self, range: RangeInclusive<u32>) -> u32 {
        let count = u64::from(*range.end()) - u64::from(*range.start()) + 1;
        range.start() + (self.next() % count) as u32
    }

    pub fn pick<T: Copy>(&mut self, items: &[T]) -> T {
        items[self.below(items.len())]
    }

    /// True once in `times`.
    pub fn once_in(&mut self, times: usize) -> bool {
        self.below(times) == 0
    }

    pub fn byte(&mut self) -> u8 {
        self.next() as u8
    }

    pub fn bytes(&mut self, length: usize) -> Vec<u8> {
        (0..length).map(|_| self.byte()).collect()
    }

    /// Uppercase hexadecimal digits.
    pub fn digits(&mut self, length: usize) -> Vec<u8> {
        (0..length).map(|_| self.pick(b"0123456789ABCDEF")).collect()
    }
}

impl Drop for Generator {
    fn drop(&mut self) {
        if thread::panicking() {
            eprintln!("to repeat this run: PENSION_SEED={}", self.seed);
        }
    }
}
