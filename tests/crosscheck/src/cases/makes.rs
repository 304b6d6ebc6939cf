//! Make on settings within, at and off limits, in words that hold junk, fewer
//! than needed or more.

use crate::failure::Failure;
use crate::make_up::settings::{self, Size};
use crate::make_up::{editions, junk};
use crate::rng::Rng;
use crate::side_by_side::{Checks, SideBySide};
use second::Settings;
use sides::Call;

pub fn run(rng: &mut Rng, checks: &mut Checks) -> Result<(), Failure> {
    let settings = settings::any(rng);
    with(rng, settings, checks)
}

pub fn with(rng: &mut Rng, settings: Settings, checks: &mut Checks) -> Result<(), Failure> {
    let len = length(rng, &settings);
    let words = junk::words(rng, len);
    let mut pools = SideBySide::new(&words, checks);
    pools.call(Call::Make(settings), checks)?;
    for _ in 0..rng.below(4) {
        let worker = junk::worker(rng, settings.workers);
        let value = junk::word(rng);
        pools.call(Call::BeginPut { worker, value }, checks)?;
        pools.call(Call::Step { worker }, checks)?;
    }
    Ok(())
}

/// Around the needed words, around 12, or any; off limits, where no number of
/// words is needed, that of a small pool or of the largest.
fn length(rng: &mut Rng, wanted: &Settings) -> usize {
    let settings = if wanted.within_limits() {
        *wanted
    } else {
        let small = settings::within(rng, Size::Small);
        rng.pick(&[small, settings::LARGEST])
    };
    let needed = settings.needed_words();
    match rng.below(6) {
        0 => rng.below(14) as usize,
        1 => rng.below(needed as u32) as usize,
        2..=3 => rng.pick(&editions::lengths(&settings)),
        _ => needed + rng.below(6) as usize,
    }
}
