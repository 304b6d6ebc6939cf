//! Takes whose distance goes through segments of every sort: images of one width
//! made up for them.

use crate::failure::Failure;
use crate::make_up::held_cells;
use crate::make_up::settings::{of_width, Size};
use crate::make_up::values::{Values, SHARES};
use crate::rng::Rng;
use crate::side_by_side::{Checks, SideBySide};
use second::{QUEUE, STACK, TAKEN};
use sides::Call;

/// Of each kind and share of spacers: so many come to every corner, at width 1 too.
const IMAGES: usize = 150;

pub fn run(rng: &mut Rng, width: u32, checks: &mut Checks) -> Result<(), Failure> {
    for kind in [QUEUE, STACK] {
        for share in SHARES.into_iter().cycle().take(SHARES.len() * IMAGES) {
            let values = Values { share };
            let size = match rng.below(20) {
                0 => Size::Large,
                1..=3 => Size::Medium,
                _ => Size::Small,
            };
            let settings = of_width(rng, kind, width, size);
            let image = held_cells::image(rng, &settings, values);
            a_take(image, values, checks)?;
        }
    }
    Ok(())
}

/// The next step of the image's worker takes an item.
pub fn a_take(
    (words, worker): (Vec<u32>, u32),
    values: Values,
    checks: &mut Checks,
) -> Result<(), Failure> {
    let mut pools = SideBySide::with_values(&words, values, checks);
    let answer = pools.call(Call::Step { worker }, checks)?;
    if answer.number != TAKEN {
        let what = format!("{answer:?} is no take, on {words:?}");
        return Err(Failure::Said(what));
    }
    Ok(())
}
