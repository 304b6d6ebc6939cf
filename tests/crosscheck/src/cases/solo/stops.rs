//! Where the others have stopped before a solo operation.

use super::begin;
use crate::cases::from_make::FromMake;
use crate::cases::play::play_disturbed;
use crate::cases::runs::random_run;
use crate::failure::Failure;
use crate::make_up::most_steps;
use crate::make_up::settings::{of_kind, of_solo_script, Size};
use crate::rng::Rng;
use crate::side_by_side::Checks;
use second::phase::Side;
use second::{solo_steps_bound, Settings, EMPTY, FULL, IDLE};
use sides::Call;

/// How they came there.
#[derive(Clone, Copy)]
pub enum Stops {
    /// By a random run.
    AtRandom,
    /// After it one by one, with puts alone or takes alone.
    OneByOne(Side),
    /// By a script to the most steps of this side, with calls at random in it.
    NearTheMost(Side),
}

impl Stops {
    /// A run of a pool of this kind, with two workers or more.
    pub fn run(self, rng: &mut Rng, kind: u32, checks: &mut Checks) -> Result<FromMake, Failure> {
        match self {
            Stops::AtRandom => short_run(rng, kind, checks),
            Stops::OneByOne(side) => {
                let mut run = short_run(rng, kind, checks)?;
                stop_one_by_one(rng, &mut run, side, checks)?;
                Ok(run)
            }
            Stops::NearTheMost(side) => disturbed_script(rng, kind, side, checks),
        }
    }
}

fn short_run(rng: &mut Rng, kind: u32, checks: &mut Checks) -> Result<FromMake, Failure> {
    let (size, calls) = size(rng);
    let settings = of_kind(rng, kind, size);
    let settings = Settings {
        workers: settings.workers.max(2),
        ..settings
    };
    random_run(rng, settings, calls, checks)
}

/// Many short ones: it is their ends that count.
fn size(rng: &mut Rng) -> (Size, u32) {
    match rng.below(60) {
        0 => (Size::Large, rng.between(500, 4_000)),
        1..=9 => (Size::Medium, rng.between(100, 1_500)),
        10..=24 => (Size::Deep, rng.between(200, 2_000)),
        _ => (Size::Small, rng.between(20, 400)),
    }
}

/// Worker 0 goes on until the pool is full or empty, if it is not too large,
/// and then each other one for some calls: so they also stop at the stages to
/// which only such a pool leads.
fn stop_one_by_one(
    rng: &mut Rng,
    run: &mut FromMake,
    side: Side,
    checks: &mut Checks,
) -> Result<(), Failure> {
    for worker in 0..run.settings.workers {
        let calls = match worker {
            0 => 1_000,
            _ => rng.below(solo_steps_bound(&run.settings)),
        };
        for _ in 0..calls {
            let answer = run.call(Call::Step { worker }, checks)?;
            if worker == 0 && [EMPTY, FULL].contains(&answer.number) {
                break;
            }
            if answer.number == IDLE {
                run.call(begin(rng, worker, side, run.values), checks)?;
            }
        }
    }
    Ok(())
}

fn disturbed_script(
    rng: &mut Rng,
    kind: u32,
    side: Side,
    checks: &mut Checks,
) -> Result<FromMake, Failure> {
    let width = rng.between(1, 16);
    let settings = of_solo_script(rng, kind, width, Size::Small);
    let mut run = FromMake::new("disturbed script", rng, settings, checks)?;
    let script = most_steps::script(rng, settings, side);
    play_disturbed(rng, &mut run, script, checks)?;
    Ok(run)
}
