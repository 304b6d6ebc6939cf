//! Moves between editions (K6, K8): of pools from make in the midst of a run, of images
//! that no make leads to, and refused ones. After a move both pools go on.

mod any;
mod exceptions;
mod faults;
mod images;
mod lengths;
mod met;
mod runs;
mod sized_images;
mod travels;
mod twin;

use crate::failure::Failure;
use crate::make_up::settings::{of_kind, whole_windows, Size};
use crate::moved::Trip;
use crate::rng::Rng;
use crate::side_by_side::Checks;
use second::{QUEUE, STACK};
use sides::{Move, MOVES};

/// Runs of each kind: so many meet a worker at each phase.
const RUNS: u32 = 4;
/// Images are short: there are this many of each kind and direction.
const IMAGES: u32 = 40;

pub fn run(rng: &mut Rng, checks: &mut Checks) -> Result<(), Failure> {
    for kind in [QUEUE, STACK] {
        for _ in 0..RUNS {
            runs::run(rng, kind, checks)?;
            travels::run(rng, kind, checks)?;
        }
        for which in MOVES {
            for image in 0..IMAGES {
                let size = match image {
                    0 => Size::Large,
                    1..=4 => Size::Medium,
                    _ => Size::Small,
                };
                let trip = of_image(rng, which, kind, size);
                match which {
                    Move::From0To1 | Move::From1To0 => images::run(rng, trip, checks)?,
                    _ => sized_images::run(rng, trip, checks)?,
                }
            }
            for _ in 0..IMAGES {
                any::run(rng, which, checks)?;
            }
            let trip = of_image(rng, which, kind, Size::Small);
            lengths::run(rng, trip, checks)?;
            faults::run(rng, trip, checks)?;
        }
    }
    exceptions::run(rng, checks)
}

fn of_image(rng: &mut Rng, which: Move, kind: u32, size: Size) -> Trip {
    Trip {
        which,
        settings: whole_windows(of_kind(rng, kind, size)),
        from_make: false,
    }
}
