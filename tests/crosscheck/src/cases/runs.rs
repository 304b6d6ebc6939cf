//! A run from make under a random schedule.

use super::from_make::FromMake;
use crate::failure::Failure;
use crate::make_up::schedule::{Numbers, Schedule};
use crate::make_up::settings::{within, Size};
use crate::make_up::values::Values;
use crate::rng::Rng;
use crate::side_by_side::Checks;
use second::{worst_distance, Settings};

/// What the runs of a cross-check add up to.
#[derive(Default)]
pub struct Runs {
    pub runs: u64,
    pub operations: u64,
    /// Runs in which some put or take cannot stand at its last step.
    pub changed_early: u64,
    /// How many percent of the worst distance a take has passed over, by kind, where no size was
    /// set.
    pub percent_of_worst: [u32; 2],
    /// How many runs had a take that passed over all of it, by kind.
    pub at_worst: [u64; 2],
}

impl Runs {
    pub fn run(&mut self, rng: &mut Rng, checks: &mut Checks) -> Result<(), Failure> {
        let (size, calls) = size(rng);
        let settings = within(rng, size);
        let run = random_run(rng, settings, calls, checks)?;
        let placed = run.one_at_a_time()?;
        self.runs += 1;
        self.operations += placed.events.len() as u64;
        self.changed_early += u64::from(placed.returns > 0);
        if !run.sizes_set {
            self.note_passed(&settings, run.most_passed);
        }
        checks.coverage.places.record(&settings, &placed);
        checks.coverage.stretch.record_run(&settings, run.longest);
        Ok(())
    }

    /// In a pool of one sub no take passes over anything, which tells nothing.
    fn note_passed(&mut self, settings: &Settings, most: u32) {
        let kind = settings.kind as usize;
        let worst = worst_distance(settings);
        if let Some(percent) = (most * 100).checked_div(worst) {
            self.percent_of_worst[kind] = percent.max(self.percent_of_worst[kind]);
            self.at_worst[kind] += u64::from(most == worst);
        }
    }
}

/// So many calls under a random schedule, with any share of spacers.
pub fn random_run(
    rng: &mut Rng,
    settings: Settings,
    calls: u32,
    checks: &mut Checks,
) -> Result<FromMake, Failure> {
    let values = Values::new(rng);
    random_run_of(rng, (settings, values), calls, checks)
}

/// With these values.
pub fn random_run_of(
    rng: &mut Rng,
    (settings, values): (Settings, Values),
    calls: u32,
    checks: &mut Checks,
) -> Result<FromMake, Failure> {
    let mut run = FromMake::with_values("random run", rng, (settings, values), checks)?;
    let mut schedule = Schedule::new(rng, settings, Numbers::Any, values);
    for _ in 0..calls {
        let call = schedule.next(rng, run.words());
        run.call(call, checks)?;
    }
    Ok(run)
}

/// Small pools often, the largest now and then and for longer.
fn size(rng: &mut Rng) -> (Size, u32) {
    match rng.below(40) {
        0..=1 => (Size::Large, rng.between(1_000, 40_000)),
        2..=9 => (Size::Medium, rng.between(100, 4_000)),
        10..=25 => (Size::Deep, rng.between(500, 5_000)),
        _ => (Size::Small, rng.between(20, 800)),
    }
}

/// Many short ones, where what a dispatch or a move meets is what counts.
pub fn short(rng: &mut Rng) -> (Size, u32) {
    match rng.below(40) {
        0 => (Size::Large, rng.between(200, 2_000)),
        1..=9 => (Size::Medium, rng.between(50, 1_000)),
        10..=15 => (Size::Deep, rng.between(100, 1_000)),
        _ => (Size::Small, rng.between(10, 300)),
    }
}
