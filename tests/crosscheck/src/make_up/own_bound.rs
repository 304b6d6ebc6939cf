//! A script that brings a queue's take to the bound of its own window (K8), one of a size
//! that was set before it. The filler fills the first window, of the pool's size, and raises
//! the next one; there it fills all subs but the one that it comes to last, and puts one item
//! there. The other worker takes all of the first window. The filler, at that last sub, takes
//! its item and passes over all the others.

use super::acts::{puts, takes, Until};
use super::script::Script;
use super::settings::{of_width, with_two_workers, Size as Sort};
use super::sizes::deepest;
use crate::rng::Rng;
use second::phase::Stage;
use second::{Settings, Size, QUEUE};

const FILLER: u32 = 0;
const OTHER: u32 = 1;

/// Settings for it of this width, two or more, and sizes: of a deep window as wide as the
/// pool, and of a shallow one.
pub fn settings(rng: &mut Rng, width: u32) -> (Settings, [Size; 2]) {
    let settings = with_two_workers(of_width(rng, QUEUE, width, Sort::Medium));
    let some = rng.between(2, width);
    let deep = Size {
        width,
        depth: deepest(&settings),
    };
    let shallow = Size {
        width: some,
        depth: rng.between(1, settings.depth),
    };
    (settings, [deep, shallow])
}

/// Of a queue with two subs and two workers or more; the window has two subs or more.
pub fn script(settings: Settings, size: Size) -> Script {
    let bottom = settings.depth;
    let top = bottom + size.depth;
    // It has filled the pool's last sub, and starts at that index modulo the new width.
    let start = (settings.width - 1) % size.width;
    let last = (start + size.width - 1) % size.width;
    let mut acts = vec![
        puts(FILLER, Until::AllFull),
        puts(FILLER, Until::WindowIs(top)),
    ];
    let others = (0..size.width).filter(|sub| *sub != last);
    acts.extend(others.map(|sub| puts(FILLER, Until::Full(sub))));
    acts.push(puts(FILLER, Until::TopRowIs(last, bottom + 1)));
    acts.push(takes(OTHER, Until::TakeWindowIs(top)));
    acts.push(takes(FILLER, Until::Before(Stage::Commit)));
    acts.push(takes(FILLER, Until::Idle));
    Script::new(settings, acts)
}
