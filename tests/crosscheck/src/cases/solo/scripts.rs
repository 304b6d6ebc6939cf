//! A solo operation after a script that leaves it the most steps: as many as
//! the figure says.

use super::operation;
use crate::cases::from_make::FromMake;
use crate::cases::play::play;
use crate::failure::Failure;
use crate::make_up::most_steps;
use crate::make_up::settings::{of_solo_script, Size};
use crate::rng::Rng;
use crate::side_by_side::Checks;
use second::phase::Side;
use second::solo_steps;

pub fn run(
    rng: &mut Rng,
    kind: u32,
    width: u32,
    side: Side,
    checks: &mut Checks,
) -> Result<(), Failure> {
    let size = rng.pick(&[Size::Small, Size::Small, Size::Small, Size::Medium]);
    let settings = of_solo_script(rng, kind, width, size);
    let mut run = FromMake::new("script", rng, settings, checks)?;
    let script = most_steps::script(rng, settings, side);
    play(rng, &mut run, script, checks)?;
    let figure = solo_steps(&settings, side);
    // K3: "the step count has that many left"; in half of the runs, no more.
    if rng.chance(50) {
        run.leave_steps(figure, checks);
    }
    let worker = most_steps::solo_worker(rng, &settings);
    let steps = operation(rng, &mut run, (worker, side), checks)?;
    if steps < figure {
        let ends = format!("its last operation takes {steps} steps, not {figure}");
        return Err(run.said(&ends));
    }
    run.one_at_a_time()?;
    Ok(())
}
