//! A run from make by the script to the longest stretch of a queue (K7), after
//! which any step is an answer; and near it.

use super::from_make::FromMake;
use super::play::{play, play_disturbed};
use crate::failure::Failure;
use crate::make_up::longest_stretch;
use crate::make_up::settings::{of_stretch_script, Size};
use crate::rng::Rng;
use crate::side_by_side::Checks;
use second::Dispatched;
use sides::Dispatch;

/// With one worker, with two, and with more.
pub fn run(rng: &mut Rng, width: u32, checks: &mut Checks) -> Result<(), Failure> {
    for crew in 1..=3 {
        to_the_figure(rng, width, crew, checks)?;
        near_the_figure(rng, crew, checks)?;
    }
    Ok(())
}

fn to_the_figure(rng: &mut Rng, width: u32, crew: u32, checks: &mut Checks) -> Result<(), Failure> {
    let size = rng.pick(&[Size::Small, Size::Small, Size::Small, Size::Medium]);
    let settings = of_stretch_script(rng, width, crew, size);
    let mut run = FromMake::new("script", rng, settings, checks)?;
    let script = longest_stretch::script(rng, settings);
    play(rng, &mut run, script, checks)?;
    let (stretch, figure) = (run.stretch, second::longest_stretch(&settings));
    if stretch < figure {
        return Err(run.said(&format!("its stretch has {stretch} steps, not {figure}")));
    }
    let dispatch = Dispatch {
        worker: rng.below(settings.workers),
        steps: 1,
    };
    let dispatched = run.dispatch(dispatch, checks)?;
    if !matches!(dispatched, Dispatched::Finished { .. }) {
        return Err(run.said(&format!("{dispatch:?} after it comes to {dispatched:?}")));
    }
    run.one_at_a_time()?;
    checks.coverage.stretch.record_script(&settings, stretch);
    Ok(())
}

fn near_the_figure(rng: &mut Rng, crew: u32, checks: &mut Checks) -> Result<(), Failure> {
    let width = rng.between(1, 16);
    let settings = of_stretch_script(rng, width, crew, Size::Small);
    let mut run = FromMake::new("disturbed script", rng, settings, checks)?;
    let script = longest_stretch::script(rng, settings);
    play_disturbed(rng, &mut run, script, checks)
}
