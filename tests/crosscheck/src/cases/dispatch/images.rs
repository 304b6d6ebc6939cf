//! Dispatches on an image that need not come from make: from each worker on,
//! and then one after the other.

use super::from_each_worker;
use crate::failure::Failure;
use crate::make_up::{dispatches, image, junk};
use crate::rng::Rng;
use crate::side_by_side::{Checks, SideBySide};
use second::layout;
use sides::Call;

pub fn run(rng: &mut Rng, checks: &mut Checks) -> Result<(), Failure> {
    let words = image::any(rng);
    from_each_worker(rng, &words, checks)?;
    let workers = words.get(layout::WORKERS).copied().unwrap_or(1);
    let mut pools = SideBySide::new(&words, checks);
    for _ in 0..rng.between(1, 8) {
        let dispatch = dispatches::any(rng, pools.words());
        pools.dispatch(dispatch, checks)?;
        if rng.chance(30) {
            let worker = junk::worker(rng, workers);
            pools.call(Call::BeginTake { worker }, checks)?;
        }
    }
    Ok(())
}
