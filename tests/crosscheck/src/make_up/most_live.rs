//! An image of a queue with about as many live windows as there can be (K8), and a worker
//! whose next step is a put's shift that finds its window unmoved.

use super::{image, junk, live_windows};
use crate::rng::Rng;
use second::phase::{Side, Stage};
use second::{layout, Edition, Settings};

/// Its windows are of the least depth, and of any width.
pub fn image(rng: &mut Rng, settings: &Settings) -> (Vec<u32>, u32) {
    let mut words = image::of(rng, settings);
    let live = rng.between(14, layout::MOST_LIVE);
    live_windows::set_shallow(rng, settings, live, &mut words);
    words[layout::STEPS_COUNTED] = rng.below(100);
    let bottom = live_windows::take_bottom(settings, Edition::CURRENT, &words);
    let subs = settings.subs_at()..settings.workers_at();
    words[subs].fill(bottom);
    let worker = rng.below(settings.workers);
    let at = settings.workers_at() + layout::WORKER_WORDS * worker as usize;
    words[at + layout::PHASE] = Side::Put.phase(Stage::Shift);
    words[at + layout::SEEN_WINDOW] = words[layout::PUT_WINDOW];
    words[at + layout::SEEN_BOTTOM] = junk::word(rng);
    words[at + layout::SEEN_WIDTH] = settings.width;
    (words, worker)
}
