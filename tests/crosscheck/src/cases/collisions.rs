//! Collisions (K5): images of each edition, with about as many words as are needed,
//! and runs in which the ninth words come round.

use super::from_make::FromMake;
use super::images::set_size;
use crate::failure::Failure;
use crate::make_up::editions::{self, ABOUT_HEADER, EDITIONS};
use crate::make_up::schedule::{Numbers, Schedule};
use crate::make_up::settings::{of_kind, Size};
use crate::make_up::{dispatches, junk};
use crate::rng::Rng;
use crate::side_by_side::{Checks, SideBySide};
use second::{Edition, Settings, QUEUE, STACK};
use sides::Call;

pub fn run(rng: &mut Rng, checks: &mut Checks) -> Result<(), Failure> {
    for kind in [QUEUE, STACK] {
        for edition in EDITIONS.into_iter().chain([junk::word(rng), rng.u32()]) {
            of_edition(rng, kind, edition, checks)?;
        }
        long_run(rng, kind, checks)?;
    }
    Ok(())
}

fn of_edition(rng: &mut Rng, kind: u32, edition: u32, checks: &mut Checks) -> Result<(), Failure> {
    let settings = of_kind(rng, kind, Size::Small);
    for len in ABOUT_HEADER.into_iter().chain(editions::lengths(&settings)) {
        let words = editions::image(rng, (&settings, Edition::CURRENT), edition, len);
        each_call(rng, &words, settings.workers, checks)?;
    }
    Ok(())
}

/// All of them on these words.
fn each_call(
    rng: &mut Rng,
    words: &[u32],
    workers: u32,
    checks: &mut Checks,
) -> Result<(), Failure> {
    let worker = junk::worker(rng, workers);
    let value = junk::word(rng);
    for call in [
        Call::BeginPut { worker, value },
        Call::BeginTake { worker },
        Call::Step { worker },
        set_size(rng, words),
    ] {
        SideBySide::new(words, checks).call(call, checks)?;
    }
    let dispatch = dispatches::any(rng, words);
    SideBySide::new(words, checks).dispatch(dispatch, checks)?;
    Ok(())
}

/// A random run with failed commits from before, nearly as many as a word can hold.
fn long_run(rng: &mut Rng, kind: u32, checks: &mut Checks) -> Result<(), Failure> {
    let settings = of_kind(rng, kind, Size::Small);
    let settings = Settings {
        workers: settings.workers.max(2),
        ..settings
    };
    let mut run = FromMake::new("long run", rng, settings, checks)?;
    run.leave_failed_commits(rng, checks);
    let mut schedule = Schedule::new(rng, settings, Numbers::Any, run.values);
    for _ in 0..rng.between(100, 1_000) {
        if rng.chance(5) {
            let dispatch = dispatches::any(rng, run.words());
            run.dispatch(dispatch, checks)?;
        } else {
            let call = schedule.next(rng, run.words());
            run.call(call, checks)?;
        }
    }
    run.one_at_a_time()?;
    Ok(())
}
