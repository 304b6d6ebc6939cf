//! An image that need not come from make, moved between editions 1 and 2 (K8), and then
//! some calls on the moved pool.

use super::met::Met;
use super::travels::comes_back;
use super::twin::moved_to_junk;
use crate::cases::images::next_call;
use crate::coverage::numbers;
use crate::failure::Failure;
use crate::make_up::{dispatches, image, movable};
use crate::moved::Trip;
use crate::rng::Rng;
use crate::side_by_side::{Checks, SideBySide};
use second::{Dispatched, MAY_NOT_MOVE, MOVING, WRONG_EDITION};
use sides::Call;

pub fn run(rng: &mut Rng, trip: Trip, checks: &mut Checks) -> Result<(), Failure> {
    let [old, new] = trip.which.editions();
    // Of any P, T and sizes, mostly excepted if it is a queue.
    let any = image::of_edition(rng, &trip.settings, old);
    let (number, _) = moved_to_junk(rng, trip, &any, checks)?;
    if ![MOVING, MAY_NOT_MOVE].contains(&number) {
        let what = format!("{:?} is answered {number}: {any:?}", trip.which);
        return Err(Failure::Said(what));
    }
    let from = movable::image(rng, trip.which, &trip.settings);
    let (number, to) = moved_to_junk(rng, trip, &from, checks)?;
    let (again, _) = moved_to_junk(rng, trip, &to, checks)?;
    if [number, again] != [MOVING, WRONG_EDITION] {
        let what = format!("{:?} is answered {number}, and then {again}", trip.which);
        return Err(Failure::Said(format!("{what}: {from:?}")));
    }
    comes_back(rng, trip, &from, &to, checks)?;
    let mut met = Met::default();
    met.has_moved(trip, &to);
    let mut pools = SideBySide::in_edition(new, &to, checks);
    let workers = trip.settings.workers;
    let mut worker = rng.below(workers);
    for _ in 0..rng.between(1, 40) {
        let (call, number, finished) = if rng.chance(10) {
            let dispatch = dispatches::of_edition(rng, new, pools.words());
            let (dispatched, _) = pools.dispatch(dispatch, checks)?;
            let finished = match dispatched {
                Dispatched::Finished { worker, .. } => Some(worker),
                _ => None,
            };
            (numbers::DISPATCH, dispatched.returned().0, finished)
        } else {
            let call = next_call(rng, workers, &mut worker);
            let answer = pools.call(call, checks)?;
            let finished = match call {
                Call::Step { worker } if answer.is_final() => Some(worker),
                _ => None,
            };
            (numbers::name(call), answer.number, finished)
        };
        met.note(call, number, finished, checks);
    }
    Ok(())
}
