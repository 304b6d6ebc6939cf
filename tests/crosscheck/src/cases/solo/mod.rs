//! A worker left by itself (K3): it begins, and no other steps until its final
//! answer.

mod runs;
mod scripts;
mod stops;

use super::from_make::FromMake;
use crate::failure::Failure;
use crate::make_up::schedule::{Numbers, Schedule};
use crate::make_up::values::Values;
use crate::rng::Rng;
use crate::side_by_side::Checks;
use second::phase::Side;
use second::{solo_steps, QUEUE, STACK};
use sides::Call;
use stops::Stops;

const SIDES: [Side; 2] = [Side::Put, Side::Take];

/// After random runs of both kinds, and after scripts of this width.
pub fn run(rng: &mut Rng, width: u32, checks: &mut Checks) -> Result<(), Failure> {
    for kind in [QUEUE, STACK] {
        runs::run(rng, kind, Stops::AtRandom, checks)?;
        for side in SIDES {
            runs::run(rng, kind, Stops::OneByOne(side), checks)?;
            runs::run(rng, kind, Stops::NearTheMost(side), checks)?;
            scripts::run(rng, kind, width, side, checks)?;
        }
    }
    Ok(())
}

/// An idle worker's operation; how many steps it took. In between others may
/// begin, and calls be refused.
fn operation(
    rng: &mut Rng,
    run: &mut FromMake,
    (worker, side): (u32, Side),
    checks: &mut Checks,
) -> Result<u32, Failure> {
    checks.coverage.solo.record_begin(run.words(), worker);
    run.call(begin(rng, worker, side, run.values), checks)?;
    let others = Schedule::new(rng, run.settings, Numbers::Any, run.values);
    let others_percent = rng.pick(&[0, 0, 40]);
    let figure = solo_steps(&run.settings, side);
    let who = format!("{side:?} of worker {worker} left by itself").to_lowercase();
    for steps in 1..=figure {
        while rng.chance(others_percent) {
            let call = others.no_step(rng, run.words());
            run.call(call, checks)?;
        }
        let answer = run.call(Call::Step { worker }, checks)?;
        if answer.is_final() {
            checks.coverage.solo.record_end(&run.settings, side, steps);
            return Ok(steps);
        }
        if answer.is_refusal() {
            return Err(run.said(&format!("{who}: step {steps} is refused, {answer:?}")));
        }
    }
    Err(run.said(&format!("{who}: no answer in {figure} steps")))
}

fn begin(rng: &mut Rng, worker: u32, side: Side, values: Values) -> Call {
    match side {
        Side::Put => Call::BeginPut {
            worker,
            value: values.word(rng),
        },
        Side::Take => Call::BeginTake { worker },
    }
}
