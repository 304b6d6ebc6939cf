//! A script that brings a queue to the longest stretch, the most steps without
//! a final answer. All workers play it.
//!
//! No item comes or goes in a stretch, so an operation can be kept from its
//! answer only by what it has seen before. With two workers or more, the others
//! come to a take's first read, or to its window; then the filler fills the
//! window and empties it again, and further windows if there are more. Here the
//! stretch begins. Each take ends its pass, finds that what it has seen is not
//! so any more, and once more finds all spent. The filler's put moves the put
//! window. So there is a window for takes to move to, with nothing in it yet;
//! each goes there, finds all subs bare and confirms it but for the last sub.
//!
//! One worker has nobody to move a window for it. It leaves one item in the
//! second window, in the sub before the one at its index, and takes all of the
//! first: the next take reads every sub twice before it comes to that item.

use super::acts::{puts, takes, Act, Until};
use super::script::Script;
use crate::rng::Rng;
use second::phase::Stage;
use second::Settings;
use std::ops::Range;

const FILLER: u32 = 0;

/// What the others' takes have seen before the stretch.
#[derive(Clone, Copy, PartialEq, Eq)]
enum Seen {
    /// One sub bare that is bare no more: w confirms in vain.
    Sub,
    /// A window that moved since: a pass and a shift in vain.
    Window,
}

/// Of a queue.
pub fn script(rng: &mut Rng, settings: Settings) -> Script {
    let acts = match settings.workers {
        1 => of_one(&settings),
        _ => of_many(&settings, most_in_vain(rng, &settings)),
    };
    Script::new(settings, acts)
}

/// 5w + 1 steps or 4w + 3.
fn most_in_vain(rng: &mut Rng, settings: &Settings) -> Seen {
    match settings.width {
        1 => Seen::Window,
        2 => rng.pick(&[Seen::Window, Seen::Sub]),
        _ => Seen::Sub,
    }
}

fn of_one(settings: &Settings) -> Vec<Act> {
    let mut acts = vec![puts(FILLER, Until::Full(0))];
    for sub in 1..settings.width {
        acts.push(puts(FILLER, Until::Full(sub)));
        acts.push(takes(FILLER, Until::OutOfReach(sub)));
    }
    // Into the last sub; then what is left of the first window, in sub 0.
    acts.push(puts(FILLER, Until::WindowIs(2 * settings.depth)));
    acts.push(puts(FILLER, Until::Idle));
    acts.push(takes(FILLER, Until::NoneInReach));
    acts.push(takes(FILLER, Until::Before(Stage::Commit)));
    acts
}

fn of_many(settings: &Settings, seen: Seen) -> Vec<Act> {
    let Settings { width, depth, .. } = *settings;
    let takers = 1..settings.workers;
    let last_confirm = Until::At(Stage::Confirm, width - 1);
    let mut acts = Vec::new();
    let window = match seen {
        Seen::Sub => {
            all_take(&mut acts, &takers, &[Until::At(Stage::Read, 1)]);
            acts.push(puts(FILLER, Until::AllFull));
            acts.push(takes(FILLER, Until::NoneInReach));
            depth
        }
        Seen::Window => {
            all_take(&mut acts, &takers, &[Until::At(Stage::Read, 0)]);
            acts.push(puts(FILLER, Until::AllFull));
            acts.push(puts(FILLER, Until::WindowIs(2 * depth)));
            acts.push(puts(FILLER, Until::AllFull));
            acts.push(takes(FILLER, Until::TakeWindowIs(2 * depth)));
            acts.push(takes(FILLER, Until::NoneInReach));
            // The stretch begins with their pass and shift in vain.
            let in_vain = [Until::Before(Stage::Shift), Until::Before(Stage::Window)];
            all_take(&mut acts, &takers, &in_vain);
            2 * depth
        }
    };
    all_take(&mut acts, &takers, &[Until::Before(Stage::Shift)]);
    acts.push(puts(FILLER, Until::WindowIs(window + depth)));
    acts.push(puts(FILLER, Until::Before(Stage::Commit)));
    all_take(&mut acts, &takers, &[last_confirm]);
    acts
}

/// One taker after the other goes on through these ends of its acts.
fn all_take(acts: &mut Vec<Act>, takers: &Range<u32>, ends: &[Until]) {
    for taker in takers.clone() {
        acts.extend(ends.iter().map(|until| takes(taker, *until)));
    }
}
