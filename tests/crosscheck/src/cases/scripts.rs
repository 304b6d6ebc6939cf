//! A run from make by the script that brings a take to its worst distance.

use super::from_make::FromMake;
use super::play::play;
use crate::failure::Failure;
use crate::make_up::settings::of_script;
use crate::make_up::values::Values;
use crate::make_up::worst_distance;
use crate::rng::Rng;
use crate::side_by_side::Checks;
use crate::take::Take;
use second::{Settings, STACK};

/// Of a stack, with any share of spacers.
pub fn run(rng: &mut Rng, checks: &mut Checks) -> Result<(), Failure> {
    let settings = of_script(rng, STACK);
    let values = Values::new(rng);
    to_the_worst(rng, settings, values, checks)?;
    checks.coverage.record_script(&settings);
    Ok(())
}

/// The last take must come to the figure.
pub fn to_the_worst(
    rng: &mut Rng,
    settings: Settings,
    values: Values,
    checks: &mut Checks,
) -> Result<(), Failure> {
    let mut run = FromMake::with_values("script", rng, (settings, values), checks)?;
    let last = play(rng, &mut run, worst_distance::script(settings), checks)?;
    Take::of_script(run.words(), &last).map_err(|what| run.said(&what))?;
    run.one_at_a_time()?;
    checks.coverage.worst_scripts += 1;
    Ok(())
}
