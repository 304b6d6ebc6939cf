//! Plays a script in a run.

use super::from_make::FromMake;
use crate::failure::Failure;
use crate::make_up::schedule::{Numbers, Schedule};
use crate::make_up::script::Script;
use crate::rng::Rng;
use crate::side_by_side::Checks;
use second::{Answer, MOVING};

/// To its end; the answer to its last call.
pub fn play(
    rng: &mut Rng,
    run: &mut FromMake,
    mut script: Script,
    checks: &mut Checks,
) -> Result<Answer, Failure> {
    let mut last = Answer::of(MOVING);
    while let Some(call) = script.next(rng, run.words(), run.values) {
        last = run.call(call, checks)?;
    }
    Ok(last)
}

/// With calls at random in it: near where a script leads, a figure that is too
/// low would be passed first.
pub fn play_disturbed(
    rng: &mut Rng,
    run: &mut FromMake,
    mut script: Script,
    checks: &mut Checks,
) -> Result<(), Failure> {
    let mut others = Schedule::new(rng, run.settings, Numbers::Any, run.values);
    let others_percent = rng.pick(&[1, 4, 10]);
    while let Some(call) = script.next(rng, run.words(), run.values) {
        run.call(call, checks)?;
        if rng.chance(others_percent) {
            let call = others.next(rng, run.words());
            run.call(call, checks)?;
        }
    }
    Ok(())
}
