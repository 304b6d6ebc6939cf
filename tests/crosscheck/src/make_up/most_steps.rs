//! A script after which a solo operation takes the most steps that there can
//! be. Two workers play it; any others never step.
//!
//! A solo operation that meets a spent window moves it, and the art is to leave
//! it more to do after that. In a queue the mover's put has moved the put
//! window and stops: a take follows with its own window, finds all subs bare,
//! and has to confirm it.
//!
//! In a stack the mover stops before a shift, and the filler undoes what led to
//! it: takes what is in reach if the shift is a put's, fills all subs if it is
//! a take's. The shift looks at the window's version alone and still moves it,
//! so that all subs are two shifts away. The solo operation makes both of them;
//! or, if the window is at its end after one, it has to confirm that.

use super::acts::{puts, takes, Act, Until};
use super::script::Script;
use crate::rng::Rng;
use second::phase::{Side, Stage};
use second::{Settings, QUEUE};

const FILLER: u32 = 0;
const MOVER: u32 = 1;

/// For the put or take of any idle worker, in a pool with two workers or more;
/// in a stack with fewer than four subs, R is at least d + 2s.
pub fn script(rng: &mut Rng, settings: Settings, side: Side) -> Script {
    let acts = if settings.kind == QUEUE {
        of_queue(&settings, side)
    } else {
        of_stack(&settings, side, stop_window(rng, &settings, side))
    };
    Script::new(settings, acts)
}

/// The mover has stopped, any other may go on.
pub fn solo_worker(rng: &mut Rng, settings: &Settings) -> u32 {
    let others = rng.below(settings.workers - 1);
    others + u32::from(others >= MOVER)
}

fn of_queue(settings: &Settings, side: Side) -> Vec<Act> {
    let mut acts = vec![puts(FILLER, Until::AllFull)];
    if side == Side::Take {
        acts.push(puts(MOVER, Until::WindowIs(2 * settings.depth)));
        acts.push(takes(FILLER, Until::NoneInReach));
    }
    acts
}

fn of_stack(settings: &Settings, side: Side, stop: u32) -> Vec<Act> {
    match side {
        Side::Put => vec![
            puts(FILLER, Until::WindowIs(stop)),
            puts(FILLER, Until::Idle),
            takes(FILLER, Until::NoneInReach),
            takes(MOVER, Until::Before(Stage::Shift)),
            puts(FILLER, Until::AllFull),
            takes(MOVER, Until::WindowIs(stop - settings.shift)),
        ],
        Side::Take => vec![
            puts(FILLER, Until::WindowIs(stop)),
            puts(FILLER, Until::AllFull),
            puts(MOVER, Until::Before(Stage::Shift)),
            takes(FILLER, Until::NoneInReach),
            puts(MOVER, Until::WindowIs(stop + settings.shift)),
        ],
    }
}

/// The window at which the mover stops: an end of its way for one shift and w
/// confirms, between the ends for two shifts and an item, whichever is more.
fn stop_window(rng: &mut Rng, settings: &Settings, side: Side) -> u32 {
    let Settings {
        width,
        depth,
        shift,
        ..
    } = *settings;
    let shifts = (settings.rows - depth) / shift;
    let made = if 2 * width + 8 > 3 * width + 4 {
        rng.between(1, shifts - 1)
    } else {
        match side {
            Side::Put => shifts,
            Side::Take => 0,
        }
    };
    depth + shift * made
}
