//! A script in which a commit fails: the loser comes to stand before it, the
//! winner changes that sub, and the loser goes on to its answer.

use super::acts::{puts, takes, Until};
use super::script::Script;
use crate::rng::Rng;
use second::phase::{Side, Stage};
use second::{Settings, Size};

/// Of a put or a take, in a pool with two workers or more.
pub fn script(rng: &mut Rng, settings: Settings, side: Side) -> Script {
    let [loser, winner] = two_workers(rng, &settings);
    // Its index from make: the first read is a hit.
    let sub = loser % settings.width;
    let acts = match side {
        Side::Put => vec![
            puts(loser, Until::Before(Stage::Commit)),
            puts(winner, Until::Full(sub)),
            puts(loser, Until::Idle),
        ],
        Side::Take => vec![
            puts(winner, Until::AllFull),
            takes(loser, Until::Before(Stage::Commit)),
            takes(winner, Until::OutOfReach(sub)),
            takes(loser, Until::Idle),
        ],
    };
    Script::new(settings, acts)
}

/// The same of a queue, in a window of a size that was set before: the winner raises it
/// first. The loser's index from make comes to be within its width.
pub fn script_in(rng: &mut Rng, settings: Settings, size: Size, side: Side) -> Script {
    let [loser, winner] = two_workers(rng, &settings);
    let sub = loser % settings.width % size.width;
    let top = settings.depth + size.depth;
    let mut acts = vec![
        puts(winner, Until::AllFull),
        puts(winner, Until::WindowIs(top)),
    ];
    match side {
        Side::Put => acts.extend([
            puts(loser, Until::Before(Stage::Commit)),
            puts(winner, Until::Full(sub)),
            puts(loser, Until::Idle),
        ]),
        Side::Take => {
            acts.extend((0..size.width).map(|sub| puts(winner, Until::Full(sub))));
            acts.extend([
                takes(winner, Until::TakeWindowIs(top)),
                takes(loser, Until::Before(Stage::Commit)),
                takes(winner, Until::OutOfReach(sub)),
                takes(loser, Until::Idle),
            ]);
        }
    }
    Script::new(settings, acts)
}

/// A loser and a winner.
fn two_workers(rng: &mut Rng, settings: &Settings) -> [u32; 2] {
    let loser = rng.below(settings.workers);
    let others = rng.below(settings.workers - 1);
    [loser, others + u32::from(others >= loser)]
}
