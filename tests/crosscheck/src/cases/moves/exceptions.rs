//! A queue that does not move between editions 1 and 2 for one reason alone (K8), which is
//! answered 33 also where the target is too short.

use crate::failure::Failure;
use crate::make_up::junk;
use crate::make_up::movable::{self, Exception, EXCEPTIONS};
use crate::make_up::settings::{of_kind, whole_windows, Size};
use crate::moved::{moved, Trip};
use crate::rng::Rng;
use crate::side_by_side::Checks;
use second::{MAY_NOT_MOVE, MOVING, QUEUE};

/// No exception needs so many images until one lends itself to it.
const PATIENCE: u32 = 500;

pub fn run(rng: &mut Rng, checks: &mut Checks) -> Result<(), Failure> {
    for exception in &EXCEPTIONS {
        let (trip, from) = excepted(rng, exception, checks)?;
        let len = trip.needed()[1];
        let short = rng.below(len as u32) as usize;
        for len in [len, len + 3, short, 0] {
            let to = junk::words(rng, len);
            let (number, _) = moved(trip, &from, &to, checks)?;
            if number != MAY_NOT_MOVE {
                let what = format!("{:?} with {}", trip.which, exception.name);
                return Err(Failure::Said(format!(
                    "{what} is answered {number} in {len} words: {from:?}"
                )));
            }
        }
        checks.coverage.moves.record_exception(exception.name);
    }
    Ok(())
}

/// An image that is fit, and would move but for this.
fn excepted(
    rng: &mut Rng,
    exception: &Exception,
    checks: &mut Checks,
) -> Result<(Trip, Vec<u32>), Failure> {
    for _ in 0..PATIENCE {
        let mut settings = of_kind(rng, QUEUE, Size::Small);
        if exception.name != movable::ROWS {
            settings = whole_windows(settings);
        }
        let trip = Trip {
            which: exception.which,
            settings,
            from_make: false,
        };
        let mut words = movable::image(rng, trip.which, &settings);
        let before = words.clone();
        if (exception.make)(rng, &settings, &mut words).is_none() {
            continue;
        }
        if words != before {
            let len = trip.needed()[1];
            let to = junk::words(rng, len);
            let (number, _) = moved(trip, &before, &to, checks)?;
            if number != MOVING {
                let what = format!("{:?} is answered {number}: {before:?}", trip.which);
                return Err(Failure::Said(what));
            }
        }
        return Ok((trip, words));
    }
    let what = format!("no image lends itself to {}", exception.name);
    Err(Failure::Said(what))
}
