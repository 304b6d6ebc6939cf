//! Words for places that may hold anything.

use crate::rng::Rng;
use second::STEP_LIMIT;

/// Small words and words near 2^32 are where sums and comparisons turn.
pub fn word(rng: &mut Rng) -> u32 {
    match rng.below(6) {
        0 => 0,
        1 => rng.below(4),
        2 => rng.below(80),
        3 => near_the_top(rng),
        4 => u32::MAX - rng.below(80),
        _ => rng.u32(),
    }
}

pub fn words(rng: &mut Rng, len: usize) -> Vec<u32> {
    (0..len).map(|_| word(rng)).collect()
}

/// A count that one or a few more bring round to 0.
pub fn near_the_top(rng: &mut Rng) -> u32 {
    u32::MAX - rng.below(4)
}

/// A step count, now and then at its limit.
pub fn step_count(rng: &mut Rng) -> u32 {
    match rng.below(8) {
        0 => STEP_LIMIT - 2 + rng.below(4),
        1 => u32::MAX - rng.below(3),
        2 => rng.below(STEP_LIMIT),
        _ => rng.below(100),
    }
}

/// A worker number, now and then of no worker.
pub fn worker(rng: &mut Rng, workers: u32) -> u32 {
    match rng.below(25) {
        0 => workers.wrapping_add(rng.below(3)),
        1 => word(rng),
        _ => rng.below(workers.clamp(1, 32)),
    }
}
