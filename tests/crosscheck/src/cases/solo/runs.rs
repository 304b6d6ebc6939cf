//! A few solo operations, wherever the others have stopped.

use super::stops::Stops;
use super::{operation, SIDES};
use crate::cases::from_make::FromMake;
use crate::failure::Failure;
use crate::rng::Rng;
use crate::side_by_side::Checks;
use second::{solo_steps_bound, IDLE};
use sides::Call;

pub fn run(rng: &mut Rng, kind: u32, stops: Stops, checks: &mut Checks) -> Result<(), Failure> {
    let mut run = stops.run(rng, kind, checks)?;
    for _ in 0..rng.between(1, 8) {
        let worker = rng.below(run.settings.workers);
        come_to_rest(&mut run, worker, checks)?;
        let side = rng.pick(&SIDES);
        operation(rng, &mut run, (worker, side), checks)?;
    }
    run.one_at_a_time()?;
    Ok(())
}

/// The worker's operation under way comes to its end.
fn come_to_rest(run: &mut FromMake, worker: u32, checks: &mut Checks) -> Result<(), Failure> {
    // The rest of two passes, and then at most a solo operation's steps.
    for _ in 0..2 * solo_steps_bound(&run.settings) {
        let answer = run.call(Call::Step { worker }, checks)?;
        if answer.is_final() || answer.number == IDLE {
            return Ok(());
        }
    }
    Err(run.said(&format!("worker {worker} does not come to an end")))
}
