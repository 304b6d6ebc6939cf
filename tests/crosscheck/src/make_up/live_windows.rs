//! A queue's live windows where they have sizes of their own (K8): up to 16, of any size
//! within limits, anywhere up to 2^32; and what is fit beside them.

use super::{junk, sizes};
use crate::rng::Rng;
use second::phase::is_past_window;
use second::{layout, Edition, Settings, Size, QUEUE};

/// The words after the cells; of a queue with T, and P as they lead up to it.
pub fn set(rng: &mut Rng, settings: &Settings, edition: Edition, words: &mut [u32]) {
    let at = settings.sizes_at_in(edition);
    words[at..at + edition.size_words()].fill(0);
    if settings.kind != QUEUE {
        return;
    }
    let some = rng.between(1, layout::MOST_LIVE);
    let live = rng.pick(&[1, 1, 2, 3, some, layout::MOST_LIVE]);
    let sizes: Vec<Size> = (0..live).map(|_| sizes::within(rng, settings)).collect();
    set_sizes(rng, settings, (edition, &sizes), words);
}

/// More than one as a rule, and most of them as wide as the pool.
pub fn set_many(rng: &mut Rng, settings: &Settings, edition: Edition, words: &mut [u32]) {
    let some = rng.between(1, layout::MOST_LIVE);
    let live = rng.pick(&[2, 3, 4, some, layout::MOST_LIVE]);
    let mut sizes: Vec<Size> = (0..live).map(|_| sizes::within(rng, settings)).collect();
    for size in &mut sizes {
        if rng.chance(70) {
            size.width = settings.width;
        }
    }
    let at = settings.sizes_at_in(edition);
    words[at..at + edition.size_words()].fill(0);
    set_sizes(rng, settings, (edition, &sizes), words);
}

/// So many, each of depth 1 and any width, and the next one too.
pub fn set_shallow(rng: &mut Rng, settings: &Settings, live: u32, words: &mut [u32]) {
    let edition = Edition::CURRENT;
    let one = |rng: &mut Rng| Size {
        width: rng.between(1, settings.width),
        depth: 1,
    };
    let sizes: Vec<Size> = (0..live).map(|_| one(rng)).collect();
    let at = settings.sizes_at_in(edition);
    words[at..at + edition.size_words()].fill(0);
    set_sizes(rng, settings, (edition, &sizes), words);
    words[at + layout::NEXT_DEPTH] = 1;
}

/// So many of the pool's own size, which is the next one too, and none was ever set.
pub fn set_own(settings: &Settings, live: u32, words: &mut [u32]) {
    let own = Size::of_pool(settings);
    let at = settings.sizes_at_in(Edition::Two);
    words[at..at + Edition::Two.size_words()].fill(0);
    words[at + layout::NEXT_WIDTH] = own.width;
    words[at + layout::NEXT_DEPTH] = own.depth;
    words[at + layout::LIVE] = live;
    let pairs = words[at + layout::SIZES..].chunks_mut(layout::SIZE_WORDS);
    for pair in pairs.take(live as usize) {
        pair[layout::SIZE_WIDTH] = own.width;
        pair[layout::SIZE_DEPTH] = own.depth;
    }
}

/// In words that are zero after the cells; and any next size.
fn set_sizes(
    rng: &mut Rng,
    settings: &Settings,
    (edition, sizes): (Edition, &[Size]),
    words: &mut [u32],
) {
    let at = settings.sizes_at_in(edition);
    let next = sizes::within(rng, settings);
    words[at + layout::NEXT_WIDTH] = next.width;
    words[at + layout::NEXT_DEPTH] = next.depth;
    words[at + layout::SIZE_SET] = rng.below(2);
    words[at + layout::LIVE] = sizes.len() as u32;
    let pairs = &mut words[at + layout::SIZES..];
    for (pair, size) in pairs.chunks_mut(layout::SIZE_WORDS).zip(sizes) {
        pair[layout::SIZE_WIDTH] = size.width;
        pair[layout::SIZE_DEPTH] = size.depth;
    }
    let deep = sizes.iter().map(|size| size.depth).sum::<u32>();
    let highest = u32::MAX - deep;
    let (near_0, near_the_top) = (rng.below(3), highest - rng.below(3));
    let any = junk::word(rng).min(highest);
    let bottom = rng.pick(&[near_0, near_0, any, near_the_top]);
    words[layout::TAKE_WINDOW] = bottom + sizes[0].depth;
    words[layout::PUT_WINDOW] = bottom + deep;
}

/// Those of a fit queue, from the take window to the put window.
pub fn sizes(words: &[u32]) -> Vec<Size> {
    let settings = Settings::of_words(words);
    let edition = Edition::of_words(words).expect("a fit pool names it");
    if !edition.has_sizes() {
        let between = words[layout::PUT_WINDOW] - words[layout::TAKE_WINDOW];
        let live = between / settings.depth + 1;
        return vec![Size::of_pool(&settings); live as usize];
    }
    let at = settings.sizes_at_in(edition);
    let pairs = words[at + layout::SIZES..].chunks(layout::SIZE_WORDS);
    let sizes = pairs.map(|pair| Size {
        width: pair[layout::SIZE_WIDTH],
        depth: pair[layout::SIZE_DEPTH],
    });
    sizes.take(words[at + layout::LIVE] as usize).collect()
}

/// The take window's bottom; 0 where a sub's words are counts.
pub fn take_bottom(settings: &Settings, edition: Edition, words: &[u32]) -> u32 {
    if settings.kind != QUEUE || !edition.has_sizes() {
        return 0;
    }
    let first = settings.sizes_at_in(edition) + layout::SIZES;
    words[layout::TAKE_WINDOW] - words[first + layout::SIZE_DEPTH]
}

/// What the worker at `at` has seen of a window's size; past its window phase index and
/// scan come below that width.
pub fn set_seen(
    rng: &mut Rng,
    settings: &Settings,
    edition: Edition,
    words: &mut [u32],
    at: usize,
) {
    if !edition.has_sizes() {
        return;
    }
    let seen = at + layout::SEEN_BOTTOM..at + layout::SEEN_WIDTH + 1;
    if settings.kind != QUEUE {
        words[seen].fill(0);
        return;
    }
    if !is_past_window(words[at + layout::PHASE]) {
        return;
    }
    let window = rng.pick(&[layout::PUT_WINDOW, layout::TAKE_WINDOW]);
    let near = words[window].saturating_sub(rng.below(settings.depth + 2));
    let bottom = take_bottom(settings, edition, words);
    let any = junk::word(rng);
    words[at + layout::SEEN_BOTTOM] = rng.pick(&[near, near, bottom, bottom, 0, any]);
    let width = rng.between(1, settings.width);
    let width = rng.pick(&[width, settings.width]);
    words[at + layout::SEEN_WIDTH] = width;
    words[at + layout::INDEX] %= width;
    words[at + layout::SCAN] = match words[at + layout::SCAN] + 1 == settings.width {
        true => width - 1,
        false => words[at + layout::SCAN] % width,
    };
}
