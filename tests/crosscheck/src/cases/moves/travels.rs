//! A run from make of any edition, under a random schedule, whose pool moves to other
//! editions and back in the midst of it, sizes set among the calls where there are sizes:
//! one run, which must stand one at a time (K8: "demand 3 goes on holding over a move").
//! Editions 1 and 2 may answer differently, so it goes on in the moved words alone.

use super::met::Met;
use super::twin::moved_to_junk;
use crate::cases::from_make::FromMake;
use crate::cases::runs::short;
use crate::coverage::numbers;
use crate::failure::Failure;
use crate::make_up::dispatches;
use crate::make_up::schedule::{Numbers, Schedule};
use crate::make_up::settings::{of_kind, whole_windows};
use crate::make_up::workers::edition;
use crate::moved::Trip;
use crate::rng::Rng;
use crate::side_by_side::Checks;
use second::{Dispatched, Edition, MAY_NOT_MOVE, MOVING, QUEUE};
use sides::{Call, Move};

pub fn run(rng: &mut Rng, kind: u32, checks: &mut Checks) -> Result<(), Failure> {
    let (size, calls) = short(rng);
    let first = rng.pick(&[Edition::Zero, Edition::One, Edition::Two, Edition::Two]);
    let mut settings = of_kind(rng, kind, size);
    if first < Edition::Two || rng.chance(90) {
        settings = whole_windows(settings);
    }
    let mut run = FromMake::in_edition("travelling run", rng, (first, settings), checks)?;
    let mut schedule = match rng.chance(70) {
        true => Schedule::without_sizes(rng, settings, Numbers::Any, run.values),
        false => Schedule::new(rng, settings, Numbers::Any, run.values),
    };
    let move_percent = rng.pick(&[5, 20, 50]);
    let mut met = Met::default();
    let mut moves = [0; 2];
    for _ in 0..calls {
        let (call, number, finished) = next_call(rng, &mut run, &mut schedule, checks)?;
        met.note(call, number, finished, checks);
        if rng.chance(move_percent) {
            let which = rng.pick(&Move::from(edition(run.words())));
            if go(rng, &mut run, which, checks)? {
                met.has_moved(trip(&run, which), run.words());
                match which {
                    Move::From1To2 => moves[0] += 1,
                    Move::From2To1 => moves[1] += 1,
                    _ => {}
                }
            }
        }
    }
    run.one_at_a_time()?;
    checks.coverage.moves.record_travel(kind, moves);
    Ok(())
}

/// A dispatch now and then; the call's name and number, and whose operation it finished.
fn next_call(
    rng: &mut Rng,
    run: &mut FromMake,
    schedule: &mut Schedule,
    checks: &mut Checks,
) -> Result<(&'static str, u32, Option<u32>), Failure> {
    if rng.chance(5) {
        let dispatch = dispatches::of_edition(rng, edition(run.words()), run.words());
        let dispatched = run.dispatch(dispatch, checks)?;
        let finished = match dispatched {
            Dispatched::Finished { worker, .. } => Some(worker),
            _ => None,
        };
        return Ok((numbers::DISPATCH, dispatched.returned().0, finished));
    }
    let call = schedule.next(rng, run.words());
    let answer = run.call(call, checks)?;
    let finished = match call {
        Call::Step { worker } if answer.is_final() => Some(worker),
        _ => None,
    };
    Ok((numbers::name(call), answer.number, finished))
}

fn trip(run: &FromMake, which: Move) -> Trip {
    Trip {
        which,
        settings: run.settings,
        from_make: true,
    }
}

/// The pool goes on in the words that it is moved to, unless it is excepted.
fn go(
    rng: &mut Rng,
    run: &mut FromMake,
    which: Move,
    checks: &mut Checks,
) -> Result<bool, Failure> {
    let trip = trip(run, which);
    let (number, words) = moved_to_junk(rng, trip, run.words(), checks)?;
    let is_of_sizes = [Move::From1To2, Move::From2To1].contains(&which);
    match number {
        MOVING => {
            comes_back(rng, trip, run.words(), &words, checks)?;
            run.go_on_in(&words, checks);
            Ok(true)
        }
        MAY_NOT_MOVE if is_of_sizes && run.settings.kind == QUEUE => Ok(false),
        _ => Err(run.said(&format!("{which:?} is answered {number}"))),
    }
}

/// "Edition 1 to 2 to 1 gives the needed words exactly."
pub fn comes_back(
    rng: &mut Rng,
    trip: Trip,
    from: &[u32],
    to: &[u32],
    checks: &mut Checks,
) -> Result<(), Failure> {
    if trip.which != Move::From1To2 {
        return Ok(());
    }
    let back = Trip {
        which: Move::From2To1,
        ..trip
    };
    let (number, again) = moved_to_junk(rng, back, to, checks)?;
    let needed = trip.needed()[0];
    if number != MOVING || again[..needed] != from[..needed] {
        let what = format!("moved on and back it is answered {number}, {again:?}");
        return Err(Failure::Said(format!("{what}, and was {from:?}")));
    }
    Ok(())
}
