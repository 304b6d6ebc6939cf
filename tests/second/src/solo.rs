//! How many steps an operation takes whose worker alone steps, from its begin
//! on: a solo operation. K3: "Show that an operation whose worker alone steps,
//! from its begin on, gives a final answer within 3w + 8 steps, line and pile,
//! put and take. The other workers may have stopped in any phase. The pool
//! comes from make, and the step count has that many left."

use crate::pool::phase::Side;
use crate::pool::settings::{Settings, QUEUE};

/// K3's own number, 3w + 8, for each kind and side.
pub fn solo_steps_bound(settings: &Settings) -> u32 {
    3 * settings.width + 8
}

/// The most steps of a solo operation, by kind, side and width. A queue with
/// two workers or more has a run that comes to each, and so has a stack that
/// also has rows for two shifts, d + 2s. A pass is a window step and w reads.
pub fn solo_steps(settings: &Settings, side: Side) -> u32 {
    let w = settings.width;
    match (settings.kind, side) {
        // A pass, a shift; window, read, commit.
        (QUEUE, Side::Put) => w + 5,
        // A pass, a shift; a pass over bare subs, w confirms.
        (QUEUE, Side::Take) => 3 * w + 3,
        // A pass, a shift; a pass, a shift; window, read, check, commit. Or
        // a pass, a shift; a pass, a shift step that moves nothing, w confirms.
        _ => (2 * w + 8).max(3 * w + 4),
    }
}
