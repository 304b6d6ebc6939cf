//! A run from make in editions 0 and 1 under a random schedule, with moves back and forth
//! in the midst of it: one run, which must stand one at a time.

use super::twin::Twin;
use crate::cases::from_make::FromMake;
use crate::cases::runs::short;
use crate::failure::Failure;
use crate::make_up::dispatches;
use crate::make_up::schedule::{Numbers, Schedule};
use crate::make_up::settings::{of_kind, whole_windows};
use crate::rng::Rng;
use crate::side_by_side::Checks;
use second::Edition;
use sides::Move;

pub fn run(rng: &mut Rng, kind: u32, checks: &mut Checks) -> Result<(), Failure> {
    let (size, calls) = short(rng);
    let settings = whole_windows(of_kind(rng, kind, size));
    let mut run = FromMake::in_edition("moved run", rng, (Edition::One, settings), checks)?;
    let mut twin = Twin::made(rng, settings)?;
    let mut schedule = Schedule::new(rng, settings, Numbers::Any, run.values);
    let move_percent = rng.pick(&[5, 20, 50]);
    let mut moves = [0, 0];
    for _ in 0..calls {
        if rng.chance(5) {
            let dispatch = dispatches::of_edition(rng, Edition::One, run.words());
            let dispatched = run.dispatch(dispatch, checks)?;
            twin.follow_dispatch(dispatch, dispatched, checks)?;
        } else {
            let call = schedule.next(rng, run.words());
            let answer = run.call(call, checks)?;
            twin.follow(call, answer, checks)?;
        }
        if rng.chance(move_percent) {
            let which = one_moves(rng, &mut run, &mut twin, checks)?;
            moves[which as usize] += 1;
        }
    }
    twin.corresponds(rng, run.words(), checks)?;
    run.one_at_a_time()?;
    checks.coverage.moves.record_run(kind, moves);
    Ok(())
}

/// One of the two pools goes on in the words that the other one is moved to.
fn one_moves(
    rng: &mut Rng,
    run: &mut FromMake,
    twin: &mut Twin,
    checks: &mut Checks,
) -> Result<Move, Failure> {
    let Some([on, back]) = twin.corresponds(rng, run.words(), checks)? else {
        return Err(run.said("it is not fit to move"));
    };
    let which = rng.pick(&[Move::From0To1, Move::From1To0]);
    match which {
        Move::From0To1 => run.go_on_in(&on, checks),
        _ => twin.go_on_in(back),
    }
    twin.has_moved(which);
    Ok(which)
}
