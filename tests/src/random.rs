//! A small seeded generator of numbers, so that every generated case can be made again.

use std::sync::atomic::{AtomicU32, Ordering};

/// splitmix64 (Steele, Lea, Flood 2014): one addition and a mixing function.
pub struct Random(u64);

impl Random {
    pub fn new(seed: u64) -> Random {
        Random(seed)
    }

    pub fn next_u64(&mut self) -> u64 {
        self.0 = self.0.wrapping_add(0x9E37_79B9_7F4A_7C15);
        let mut z = self.0;
        z = (z ^ (z >> 30)).wrapping_mul(0xBF58_476D_1CE4_E5B9);
        z = (z ^ (z >> 27)).wrapping_mul(0x94D0_49BB_1331_11EB);
        z ^ (z >> 31)
    }

    /// A number from 0 to n - 1.
    pub fn below(&mut self, n: usize) -> usize {
        (self.next_u64() % n as u64) as usize
    }

    /// Any number of 32 bits.
    pub fn word(&mut self) -> u32 {
        (self.next_u64() >> 32) as u32
    }

    /// True once in n.
    pub fn one_in(&mut self, n: usize) -> bool {
        self.below(n) == 0
    }

    pub fn pick<'a, T>(&mut self, from: &'a [T]) -> &'a T {
        &from[self.below(from.len())]
    }
}

/// Says which seed failed when a case panics.
struct Case(u64);

impl Drop for Case {
    fn drop(&mut self) {
        if std::thread::panicking() {
            eprintln!("the failing case is the one of seed {}", self.0);
        }
    }
}

/// Runs a test on `count` cases, each with its own seed, on a big stack.
pub fn cases(count: u64, test: impl Fn(&mut Random) + Sync) {
    crate::tree::with_big_stack(|| {
        for seed in 0..count {
            let _case = Case(seed);
            test(&mut Random::new(seed));
        }
    });
}

/// Counts what the cases came upon, so that a test whose cases are all of one sort is noticed.
pub struct Counts<const N: usize>([AtomicU32; N]);

impl<const N: usize> Default for Counts<N> {
    fn default() -> Counts<N> {
        Counts(std::array::from_fn(|_| AtomicU32::new(0)))
    }
}

impl<const N: usize> Counts<N> {
    pub fn one(&self, sort: usize) {
        self.add(sort, 1);
    }

    pub fn add(&self, sort: usize, count: u32) {
        self.0[sort].fetch_add(count, Ordering::Relaxed);
    }

    fn counts(&self) -> [u32; N] {
        self.0.each_ref().map(|count| count.load(Ordering::Relaxed))
    }

    /// Fails unless each sort was come upon at least so often.
    pub fn assert_at_least(&self, least: [u32; N]) {
        let counts = self.counts();
        let enough = counts
            .iter()
            .zip(least)
            .all(|(count, least)| *count >= least);
        assert!(enough, "only {counts:?} cases of {least:?}");
    }
}

/// The largest number of a refusal.
const NUMBERS: usize = 19;

/// Counts the numbers that calls answer: 0 where they accept, or a refusal's.
#[derive(Default)]
pub struct Rows(Counts<{ NUMBERS + 1 }>);

impl Rows {
    pub fn one(&self, number: u32) {
        self.0.one(number as usize);
    }

    /// Fails unless each of these numbers was answered at least so often.
    pub fn assert_at_least(&self, least: &[(usize, u32)]) {
        let counts = self.0.counts();
        let enough = least
            .iter()
            .all(|(number, least)| counts[*number] >= *least);
        assert!(enough, "only {counts:?}, of {least:?}");
    }
}
