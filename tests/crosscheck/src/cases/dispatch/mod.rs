//! Dispatches (K7), in runs from make and on images.

mod images;
mod runs;

use crate::failure::Failure;
use crate::make_up::dispatches::{by_worker, COUNTS};
use crate::rng::Rng;
use crate::side_by_side::{Checks, SideBySide};
use second::{layout, QUEUE, STACK};

/// Images are short: there are this many beside two runs.
const IMAGES: u32 = 60;

pub fn run(rng: &mut Rng, checks: &mut Checks) -> Result<(), Failure> {
    for kind in [QUEUE, STACK] {
        runs::run(rng, kind, checks)?;
    }
    for _ in 0..IMAGES {
        images::run(rng, checks)?;
    }
    Ok(())
}

/// From each worker on, and by a number that no worker has, with each sort of
/// count: all of them on these words.
fn from_each_worker(rng: &mut Rng, words: &[u32], checks: &mut Checks) -> Result<(), Failure> {
    let workers = words.get(layout::WORKERS).copied().unwrap_or(0);
    for worker in 0..=workers.min(32) {
        for count in COUNTS {
            let dispatch = by_worker(rng, words, worker, count);
            SideBySide::new(words, checks).dispatch(dispatch, checks)?;
        }
    }
    Ok(())
}
