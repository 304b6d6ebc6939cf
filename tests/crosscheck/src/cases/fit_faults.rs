//! Each sentence of edition 2's fitness (K8) broken by itself: every call refuses such an
//! image with 23, and without the fault it is fit.

use super::images::set_size;
use crate::coverage::numbers::{DISPATCH, SET_SIZE};
use crate::failure::Failure;
use crate::make_up::fit_faults::{Fault, Words, FAULTS};
use crate::make_up::settings::{of_width, Size};
use crate::make_up::{dispatches, image, junk};
use crate::rng::Rng;
use crate::side_by_side::{Checks, SideBySide};
use second::{NO_WORKER, UNFIT};
use sides::Call;

/// All that ask for a fit pool.
pub const CALLS: [&str; 5] = ["begin put", "begin take", "step", SET_SIZE, DISPATCH];

/// No fault needs so many images until one lends itself to it.
const PATIENCE: u32 = 500;

pub fn run(rng: &mut Rng, checks: &mut Checks) -> Result<(), Failure> {
    for fault in &FAULTS {
        let words = spoiled(rng, fault, checks)?;
        for call in CALLS {
            let number = number(rng, &words, call, checks)?;
            if number != UNFIT {
                let what = format!("{call} with {} is answered {number}", fault.name);
                return Err(Failure::Said(format!("{what}: {words:?}")));
            }
            checks.coverage.sizes.record_fault(fault, call);
        }
    }
    Ok(())
}

fn spoiled(rng: &mut Rng, fault: &Fault, checks: &mut Checks) -> Result<Vec<u32>, Failure> {
    for _ in 0..PATIENCE {
        let size = rng.pick(&[Size::Small, Size::Small, Size::Medium, Size::Large]);
        let width = rng.between(2, 16);
        let settings = of_width(rng, fault.kind, width, size);
        let words = image::of(rng, &settings);
        let mut words = Words { settings, words };
        let before = words.words.clone();
        if (fault.spoil)(rng, &mut words).is_none() {
            continue;
        }
        let nobody = Call::Step { worker: u32::MAX };
        let answer = SideBySide::new(&before, checks).call(nobody, checks)?;
        if answer.number != NO_WORKER {
            let what = format!("an image is not fit, {answer:?}: {before:?}");
            return Err(Failure::Said(what));
        }
        return Ok(words.words);
    }
    let what = format!("no image lends itself to {}", fault.name);
    Err(Failure::Said(what))
}

/// That this call answers.
fn number(rng: &mut Rng, words: &[u32], call: &str, checks: &mut Checks) -> Result<u32, Failure> {
    let mut pools = SideBySide::new(words, checks);
    let worker = junk::worker(rng, 1);
    let call = match call {
        "begin put" => Call::BeginPut { worker, value: 1 },
        "begin take" => Call::BeginTake { worker },
        "step" => Call::Step { worker },
        SET_SIZE => set_size(rng, words),
        _ => {
            let dispatch = dispatches::any(rng, words);
            let (dispatched, _) = pools.dispatch(dispatch, checks)?;
            return Ok(dispatched.returned().0);
        }
    };
    Ok(pools.call(call, checks)?.number)
}
