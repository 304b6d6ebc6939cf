//! An image that need not come from make, moved, and then some calls on both pools.
//! What was moved does not move the same way once more.

use super::twin::{moved_to_junk, Twin};
use crate::cases::images::next_call;
use crate::failure::Failure;
use crate::make_up::{dispatches, image};
use crate::moved::Trip;
use crate::rng::Rng;
use crate::side_by_side::{Checks, SideBySide};
use second::{Edition, MOVING, WRONG_EDITION};
use sides::Move;

pub fn run(rng: &mut Rng, trip: Trip, checks: &mut Checks) -> Result<(), Failure> {
    let [old, _] = trip.which.editions();
    let from = image::of_edition(rng, &trip.settings, old);
    let (number, to) = moved_to_junk(rng, trip, &from, checks)?;
    let (again, _) = moved_to_junk(rng, trip, &to, checks)?;
    if [number, again] != [MOVING, WRONG_EDITION] {
        let what = format!("{:?} is answered {number}, and then {again}", trip.which);
        return Err(Failure::Said(what));
    }
    let (zero, one) = match trip.which {
        Move::From0To1 => (from, to),
        _ => (to, from),
    };
    let mut twin = Twin::of(trip, zero);
    let mut pools = SideBySide::in_edition(Edition::One, &one, checks);
    let workers = trip.settings.workers;
    let mut worker = rng.below(workers);
    for _ in 0..rng.between(1, 40) {
        if rng.chance(10) {
            let dispatch = dispatches::of_edition(rng, Edition::One, pools.words());
            let (dispatched, _) = pools.dispatch(dispatch, checks)?;
            twin.follow_dispatch(dispatch, dispatched, checks)?;
        } else {
            let call = next_call(rng, workers, &mut worker);
            let answer = pools.call(call, checks)?;
            twin.follow(call, answer, checks)?;
        }
    }
    twin.corresponds(rng, pools.words(), checks)?;
    Ok(())
}
