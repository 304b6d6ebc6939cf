//! Dispatches: from which worker on, and how many steps.

use super::junk;
use crate::rng::Rng;
use second::in_edition::dispatch;
use second::{layout, Dispatched, Edition, STEP_LIMIT};
use sides::Dispatch;

/// Sorts of counts.
#[derive(Clone, Copy)]
pub enum Count {
    Zero,
    One,
    Few,
    Many,
}

pub const COUNTS: [Count; 4] = [Count::Zero, Count::One, Count::Few, Count::Many];

/// Two workers of a stack can go on without an end, and so could a dispatch
/// through four thousand million steps. It gets more than these only if it ends
/// within them.
const PATIENCE: u32 = 2_000;

/// By any worker or none.
pub fn any(rng: &mut Rng, words: &[u32]) -> Dispatch {
    of_edition(rng, Edition::CURRENT, words)
}

/// Of words of this edition.
pub fn of_edition(rng: &mut Rng, edition: Edition, words: &[u32]) -> Dispatch {
    let workers = words.get(layout::WORKERS).copied().unwrap_or(1);
    let worker = junk::worker(rng, workers);
    let count = rng.pick(&COUNTS);
    with(rng, (edition, words), worker, count)
}

pub fn by_worker(rng: &mut Rng, words: &[u32], worker: u32, count: Count) -> Dispatch {
    with(rng, (Edition::CURRENT, words), worker, count)
}

fn with(rng: &mut Rng, of: (Edition, &[u32]), worker: u32, count: Count) -> Dispatch {
    let steps = match count {
        Count::Zero => 0,
        Count::One => 1,
        Count::Few => rng.between(2, 12),
        Count::Many => many(rng, of, worker),
    };
    Dispatch { worker, steps }
}

fn many(rng: &mut Rng, (edition, words): (Edition, &[u32]), worker: u32) -> u32 {
    let mut copy = words.to_vec();
    if let Dispatched::RanOut { .. } = dispatch(edition, &mut copy, worker, PATIENCE) {
        return rng.between(13, 200);
    }
    let some = rng.between(13, PATIENCE);
    rng.pick(&[some, PATIENCE, STEP_LIMIT, u32::MAX])
}
