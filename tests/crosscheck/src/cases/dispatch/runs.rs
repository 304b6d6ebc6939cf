//! A run from make under a random schedule, with dispatches in the midst of it.

use super::from_each_worker;
use crate::cases::from_make::FromMake;
use crate::cases::runs::short;
use crate::failure::Failure;
use crate::make_up::dispatches;
use crate::make_up::schedule::{Numbers, Schedule};
use crate::make_up::settings::of_kind;
use crate::rng::Rng;
use crate::side_by_side::{Checks, SideBySide};
use second::{layout, longest_stretch, Dispatched, QUEUE, STEP_LIMIT};
use sides::Dispatch;

pub fn run(rng: &mut Rng, kind: u32, checks: &mut Checks) -> Result<(), Failure> {
    let (size, calls) = short(rng);
    let settings = of_kind(rng, kind, size);
    let mut run = FromMake::new("run with dispatches", rng, settings, checks)?;
    let mut schedule = Schedule::new(rng, settings, Numbers::Any, run.values);
    let percent = rng.pick(&[1, 5, 30]);
    // Now and then, and at the end.
    let look_every = calls / 6 + 1;
    for call in 1..=calls {
        if rng.chance(percent) {
            let dispatch = dispatches::any(rng, run.words());
            run.dispatch(dispatch, checks)?;
        } else {
            let call = schedule.next(rng, run.words());
            run.call(call, checks)?;
        }
        if call % look_every == 0 || call == calls {
            look_around(rng, &run, checks)?;
        }
    }
    run.one_at_a_time()?;
    Ok(())
}

/// Dispatches that the run does not go on from.
fn look_around(rng: &mut Rng, run: &FromMake, checks: &mut Checks) -> Result<(), Failure> {
    from_each_worker(rng, run.words(), checks)?;
    let left = rng.below(3 * run.settings.workers);
    from_each_worker(rng, &with_steps_left(run, left), checks)?;
    if run.settings.kind == QUEUE {
        finishes(rng, run, checks)?;
    }
    Ok(())
}

/// A queue with a busy worker, a count of one step more than the longest
/// stretch, and as many left in the step count, in half of the cases no more.
fn finishes(rng: &mut Rng, run: &FromMake, checks: &mut Checks) -> Result<(), Failure> {
    let steps = longest_stretch(&run.settings) + 1;
    let words = if rng.chance(50) {
        with_steps_left(run, steps)
    } else {
        run.words().to_vec()
    };
    for worker in 0..run.settings.workers {
        let dispatch = Dispatch { worker, steps };
        let (dispatched, _) = SideBySide::new(&words, checks).dispatch(dispatch, checks)?;
        match dispatched {
            Dispatched::Finished { .. } | Dispatched::NoneBusy => {}
            _ => return Err(run.said(&format!("{dispatch:?} finishes nothing, {dispatched:?}"))),
        }
    }
    Ok(())
}

/// The run's words as after a long run, with so many steps left in the step
/// count.
fn with_steps_left(run: &FromMake, left: u32) -> Vec<u32> {
    let mut words = run.words().to_vec();
    words[layout::STEPS_COUNTED] = STEP_LIMIT - left;
    words
}
