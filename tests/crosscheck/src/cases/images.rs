//! A few calls on an image that need not come from make.

use crate::failure::Failure;
use crate::make_up;
use crate::make_up::{image, junk, sizes};
use crate::rng::Rng;
use crate::side_by_side::{Checks, SideBySide};
use second::{layout, Settings};
use sides::Call;

pub fn run(rng: &mut Rng, checks: &mut Checks) -> Result<(), Failure> {
    let words = image::any(rng);
    calls_on(rng, &words, checks)
}

pub fn calls_on(rng: &mut Rng, words: &[u32], checks: &mut Checks) -> Result<(), Failure> {
    let workers = words.get(layout::WORKERS).copied().unwrap_or(1);
    let mut pools = SideBySide::new(words, checks);
    let mut worker = junk::worker(rng, workers);
    for _ in 0..rng.between(1, 16) {
        let call = match rng.chance(5) {
            true => set_size(rng, pools.words()),
            false => next_call(rng, workers, &mut worker),
        };
        pools.call(call, checks)?;
    }
    Ok(())
}

/// Within the limits of these words, about them, or of any others.
pub fn set_size(rng: &mut Rng, words: &[u32]) -> Call {
    let some = make_up::settings::within(rng, make_up::settings::Size::Small);
    let settings = match words.len() < layout::HEADER_WORDS {
        true => some,
        false => Settings::of_words(words),
    };
    Call::SetSize(sizes::any(rng, &settings))
}

/// Mostly a step, and mostly of the worker that had the last call.
pub fn next_call(rng: &mut Rng, workers: u32, worker: &mut u32) -> Call {
    if rng.chance(40) {
        *worker = junk::worker(rng, workers);
    }
    let worker = *worker;
    match rng.below(10) {
        0 => Call::BeginPut {
            worker,
            value: junk::word(rng),
        },
        1 => Call::BeginTake { worker },
        _ => Call::Step { worker },
    }
}
