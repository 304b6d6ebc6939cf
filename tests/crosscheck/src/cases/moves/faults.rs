//! Moves with one thing wrong and with two at once: the first of them in the order of
//! the checks gives the number.

use crate::failure::Failure;
use crate::make_up::move_faults::{alone_and_in_pairs, spoiled, Fault};
use crate::make_up::{junk, movable};
use crate::moved::{moved, Trip};
use crate::rng::Rng;
use crate::side_by_side::Checks;

pub fn run(rng: &mut Rng, trip: Trip, checks: &mut Checks) -> Result<(), Failure> {
    for faults in alone_and_in_pairs(trip.which, trip.settings.kind) {
        with(rng, trip, &faults, checks)?;
    }
    Ok(())
}

fn with(rng: &mut Rng, trip: Trip, faults: &[Fault], checks: &mut Checks) -> Result<(), Failure> {
    let from = movable::image(rng, trip.which, &trip.settings);
    let len = trip.needed()[1] + rng.below(3) as usize;
    let to = junk::words(rng, len);
    let [from, to] = spoiled(rng, trip, [&from, &to], faults);
    let (number, _) = moved(trip, &from, &to, checks)?;
    let expected = faults[0].number();
    if number != expected {
        return Err(Failure::Said(format!(
            "{:?} with {faults:?} wrong is answered {number}, not {expected}: {from:?}",
            trip.which
        )));
    }
    checks.coverage.moves.record_faults(trip, faults);
    Ok(())
}
