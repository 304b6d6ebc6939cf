//! Spacers (K4), for each share of them: scripts to the worst distance, which is
//! passed over also where nothing of it is reported, and runs and images of the
//! smallest pools, whose takes pass over few items, often spacers alone.

use super::runs::random_run_of;
use super::scripts::to_the_worst;
use super::segments::a_take;
use crate::failure::Failure;
use crate::make_up::held_cells::of_one_item_each;
use crate::make_up::settings::{of_least_script, of_script};
use crate::make_up::values::{Values, SHARES};
use crate::rng::Rng;
use crate::side_by_side::Checks;
use second::{QUEUE, STACK};

pub fn run(rng: &mut Rng, checks: &mut Checks) -> Result<(), Failure> {
    for kind in [QUEUE, STACK] {
        for share in SHARES {
            let values = Values { share };
            let settings = of_script(rng, kind);
            to_the_worst(rng, settings, values, checks)?;
            // With few spacers it takes many tries until they are all that is
            // passed over.
            let tries = match share {
                10 => 60,
                _ => 6,
            };
            smallest(rng, kind, values, tries, checks)?;
        }
    }
    Ok(())
}

fn smallest(
    rng: &mut Rng,
    kind: u32,
    values: Values,
    tries: u32,
    checks: &mut Checks,
) -> Result<(), Failure> {
    for _ in 0..tries {
        let settings = of_least_script(rng, kind);
        to_the_worst(rng, settings, values, checks)?;
        for _ in 0..4 {
            let image = of_one_item_each(rng, &settings, values);
            a_take(image, values, checks)?;
        }
    }
    for _ in 0..4 {
        let settings = of_least_script(rng, kind);
        let run = random_run_of(rng, (settings, values), 20 * tries, checks)?;
        run.one_at_a_time()?;
    }
    Ok(())
}
