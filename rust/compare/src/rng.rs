//! Random numbers from a seed (SplitMix64), and the seeds of a test run.

use std::io::Write;
use std::sync::OnceLock;
use std::time::{SystemTime, UNIX_EPOCH};

/// The seed that every run uses.
pub const FIXED_SEED: u64 = 0x4B53_2008_0429_0102;

/// The variable that sets the fresh seed, to repeat a run.
const SEED_VARIABLE: &str = "KORBISHAF_SEED";

/// The fixed seed, and one that is new in each run and printed.
pub fn seeds() -> [u64; 2] {
    [FIXED_SEED, fresh_seed()]
}

fn fresh_seed() -> u64 {
    static FRESH: OnceLock<u64> = OnceLock::new();
    *FRESH.get_or_init(|| {
        let given = std::env::var(SEED_VARIABLE).ok();
        let seed = given.map_or_else(clock_seed, |seed| {
            seed.parse().expect("the seed is a decimal number")
        });
        // Written past the test harness, which keeps what a passing test prints.
        let line = format!("fresh seed {seed} (repeat with {SEED_VARIABLE}={seed})\n");
        std::io::stderr().write_all(line.as_bytes()).ok();
        seed
    })
}

fn clock_seed() -> u64 {
    let since = SystemTime::now().duration_since(UNIX_EPOCH);
    let nanoseconds = since.map_or(0, |time| time.as_nanos() as u64);
    Rng::new(nanoseconds ^ u64::from(std::process::id())).next()
}

/// SplitMix64.
#[derive(Debug, Clone)]
pub struct Rng(u64);

impl Rng {
    pub fn new(seed: u64) -> Self {
        Self(seed)
    }

    /// The next 64 bits.
    #[allow(clippy::should_implement_trait)]
    pub fn next(&mut self) -> u64 {
        self.0 = self.0.wrapping_add(0x9E37_79B9_7F4A_7C15);
        let mut z = self.0;
        z = (z ^ (z >> 30)).wrapping_mul(0xBF58_476D_1CE4_E5B9);
        z = (z ^ (z >> 27)).wrapping_mul(0x94D0_49BB_1331_11EB);
        z ^ (z >> 31)
    }

    /// A number below `end`.
    pub fn below(&mut self, end: usize) -> usize {
        (self.next() % end as u64) as usize
    }

    /// A number from `low` to `high`, both included.
    pub fn from_to(&mut self, low: usize, high: usize) -> usize {
        low + self.below(high - low + 1)
    }

    /// Yes, `percent` times in a hundred.
    pub fn chance(&mut self, percent: usize) -> bool {
        self.below(100) < percent
    }

    pub fn byte(&mut self) -> u8 {
        self.next() as u8
    }

    /// `length` random bytes.
    pub fn bytes(&mut self, length: usize) -> Vec<u8> {
        (0..length).map(|_| self.byte()).collect()
    }

    /// Up to `most` random bytes, often none.
    pub fn some_bytes(&mut self, most: usize) -> Vec<u8> {
        let length = if self.chance(40) {
            0
        } else {
            self.from_to(0, most)
        };
        self.bytes(length)
    }

    pub fn array<const N: usize>(&mut self) -> [u8; N] {
        std::array::from_fn(|_| self.byte())
    }

    /// One of the items.
    pub fn pick<T: Clone>(&mut self, items: &[T]) -> T {
        items[self.below(items.len())].clone()
    }
}

#[cfg(test)]
mod tests {
    use super::*;

    #[test]
    fn splitmix64_gives_its_published_numbers_for_seed_0() {
        let mut rng = Rng::new(0);
        assert_eq!(rng.next(), 0xE220_A839_7B1D_CDAF);
        assert_eq!(rng.next(), 0x6E78_9E6A_A1B9_65F4);
    }
}
