//! Images that move between editions (K6, K8), and what keeps a queue from moving between
//! editions 1 and 2, each exception by itself.

use super::{image, junk, live_windows};
use crate::rng::Rng;
use second::phase::is_past_window;
use second::{layout, Edition, Settings, QUEUE};
use sides::Move;

/// Of the edition that is moved from, and not excepted.
pub fn image(rng: &mut Rng, which: Move, settings: &Settings) -> Vec<u32> {
    let [old, _] = which.editions();
    let mut words = image::of_edition(rng, settings, old);
    match which {
        _ if settings.kind != QUEUE => {}
        Move::From1To2 => {
            let live = some_live(rng);
            set_windows(rng, settings, live, &mut words);
            set_subs(rng, settings, &mut words);
            see_own_windows(rng, settings, old, &mut words);
        }
        Move::From2To1 => {
            let live = some_live(rng);
            set_windows(rng, settings, live, &mut words);
            live_windows::set_own(settings, live, &mut words);
            set_subs(rng, settings, &mut words);
            see_own_windows(rng, settings, old, &mut words);
        }
        _ => {}
    }
    words
}

fn some_live(rng: &mut Rng) -> u32 {
    let some = rng.between(1, layout::MOST_LIVE);
    rng.pick(&[1, 2, 3, some, layout::MOST_LIVE])
}

/// P and T as so many windows of the pool's depth lead, anywhere up to 2^32.
fn set_windows(rng: &mut Rng, settings: &Settings, live: u32, words: &mut [u32]) {
    let depth = settings.depth;
    let highest = u32::MAX - live * depth;
    let any = junk::word(rng).min(highest);
    let low = rng.below(3);
    let bottom = rng.pick(&[0, low, any, highest]);
    words[layout::TAKE_WINDOW] = bottom + depth;
    words[layout::PUT_WINDOW] = bottom + live * depth;
}

/// Last rows that fit both editions.
fn set_subs(rng: &mut Rng, settings: &Settings, words: &mut [u32]) {
    let bottom = words[layout::TAKE_WINDOW] - settings.depth;
    for j in 0..settings.width as usize {
        let at = settings.subs_at() + layout::SUB_WORDS * j;
        let some = rng.below(settings.rows + 1);
        let items = rng.pick(&[0, 0, 1, settings.rows, some]);
        let taken = match rng.below(4) {
            0 => junk::word(rng),
            _ => bottom.saturating_add(rng.below(settings.depth + 2)),
        };
        let taken = taken.min(u32::MAX - items);
        let put = match taken < bottom {
            true => taken,
            false => taken + items,
        };
        words[at + layout::ITEMS_PUT] = put;
        words[at + layout::ITEMS_TAKEN] = taken;
    }
}

/// What workers past their window phase have seen: a window that is not below d, and in
/// edition 2 of the pool's size.
fn see_own_windows(rng: &mut Rng, settings: &Settings, edition: Edition, words: &mut [u32]) {
    for at in workers(settings, edition) {
        if !is_past_window(words[at + layout::PHASE]) {
            continue;
        }
        let any = junk::word(rng).max(settings.depth);
        let [put, take] = [words[layout::PUT_WINDOW], words[layout::TAKE_WINDOW]];
        let top = rng.pick(&[put, take, settings.depth, any]);
        words[at + layout::SEEN_WINDOW] = top;
        if edition.has_sizes() {
            words[at + layout::SEEN_BOTTOM] = top - settings.depth;
            words[at + layout::SEEN_WIDTH] = settings.width;
        }
    }
}

/// Where the words of each worker begin.
fn workers(settings: &Settings, edition: Edition) -> Vec<usize> {
    let first = settings.workers_at();
    let numbers = 0..settings.workers as usize;
    let at = |number| first + edition.worker_words() * number;
    numbers.map(at).collect()
}

/// Why a queue does not move: what it is, and words that a movable image gets for it. None
/// where the settings do not lend themselves to it.
pub struct Exception {
    pub name: &'static str,
    pub which: Move,
    pub make: fn(&mut Rng, &Settings, &mut Vec<u32>) -> Option<()>,
}

const fn on(
    name: &'static str,
    make: fn(&mut Rng, &Settings, &mut Vec<u32>) -> Option<()>,
) -> Exception {
    Exception {
        name,
        which: Move::From1To2,
        make,
    }
}

const fn back(
    name: &'static str,
    make: fn(&mut Rng, &Settings, &mut Vec<u32>) -> Option<()>,
) -> Exception {
    Exception {
        name,
        which: Move::From2To1,
        make,
    }
}

/// The one that the settings alone make.
pub const ROWS: &str = "R of no multiple of d";

pub const EXCEPTIONS: [Exception; 17] = [
    on("P minus T of 16 times d", |_, settings, words| {
        words[layout::TAKE_WINDOW] = settings.depth;
        words[layout::PUT_WINDOW] = 17 * settings.depth;
        clear_subs(settings, words);
        Some(())
    }),
    on("P minus T of no multiple of d", |rng, settings, words| {
        let off = (settings.depth > 1).then(|| rng.between(1, settings.depth - 1))?;
        words[layout::TAKE_WINDOW] = settings.depth;
        words[layout::PUT_WINDOW] = settings.depth * rng.between(1, 5) + off;
        clear_subs(settings, words);
        Some(())
    }),
    on("P below T", |_, settings, words| {
        words[layout::TAKE_WINDOW] = 3 * settings.depth;
        words[layout::PUT_WINDOW] = 2 * settings.depth;
        clear_subs(settings, words);
        Some(())
    }),
    on("P above T modulo 2^32 alone", |_, settings, words| {
        words[layout::TAKE_WINDOW] = 0_u32.wrapping_sub(settings.depth);
        words[layout::PUT_WINDOW] = 0;
        clear_subs(settings, words);
        Some(())
    }),
    on("T below d", |rng, settings, words| {
        let live = rng.below(3);
        words[layout::TAKE_WINDOW] = settings.depth - 1;
        words[layout::PUT_WINDOW] = settings.depth - 1 + live * settings.depth;
        clear_subs(settings, words);
        Some(())
    }),
    on("a window seen below d", |rng, settings, words| {
        let at = past_window(rng, settings, Edition::One, words)?;
        words[at + layout::SEEN_WINDOW] = rng.below(settings.depth);
        Some(())
    }),
    on("a sub that would not fit", |rng, settings, words| {
        let bottom = words[layout::TAKE_WINDOW] - settings.depth;
        let below = rng.below(bottom.min(2));
        let put = bottom.checked_sub(below).filter(|put| *put > 0)?;
        set_sub(rng, settings, words, [put, put - 1])
    }),
    back("a size that was set", |_, settings, words| {
        set(settings, words, layout::SIZE_SET, 1)
    }),
    back(ROWS, |_, settings, _| {
        (!settings.rows_are_whole_windows()).then_some(())
    }),
    back("another next width", |rng, settings, words| {
        let width = (settings.width > 1).then(|| rng.between(1, settings.width - 1))?;
        set(settings, words, layout::NEXT_WIDTH, width)
    }),
    back("another next depth", |_, settings, words| {
        set(settings, words, layout::NEXT_DEPTH, other_depth(settings)?)
    }),
    back("another live width", |rng, settings, words| {
        let width = (settings.width > 1).then(|| rng.between(1, settings.width - 1))?;
        let live = live_windows::sizes(words).len() as u32;
        let pair = layout::SIZE_WORDS * rng.below(live) as usize;
        set(
            settings,
            words,
            layout::SIZES + pair + layout::SIZE_WIDTH,
            width,
        )
    }),
    back("another live depth", |_, settings, words| {
        let depth = other_depth(settings)?;
        let live = live_windows::sizes(words).len();
        let last = layout::SIZES + layout::SIZE_WORDS * (live - 1) + layout::SIZE_DEPTH;
        let higher = depth.max(settings.depth) - depth.min(settings.depth);
        let put = words[layout::PUT_WINDOW];
        words[layout::PUT_WINDOW] = match depth > settings.depth {
            true => put.checked_add(higher)?,
            false => put - higher,
        };
        if live == 1 {
            words[layout::TAKE_WINDOW] = words[layout::PUT_WINDOW];
        }
        set(settings, words, last, depth)
    }),
    back("another width seen", |rng, settings, words| {
        let at = past_window(rng, settings, Edition::Two, words)?;
        let width = (settings.width > 1).then(|| rng.between(1, settings.width - 1))?;
        words[at + layout::SEEN_WIDTH] = width;
        words[at + layout::INDEX] %= width;
        words[at + layout::SCAN] %= width;
        Some(())
    }),
    back("another depth seen", |rng, settings, words| {
        let at = past_window(rng, settings, Edition::Two, words)?;
        let top = words[at + layout::SEEN_WINDOW];
        let off = [
            top.wrapping_sub(settings.depth).wrapping_add(1),
            top.wrapping_sub(settings.depth).wrapping_sub(1),
            top,
        ];
        words[at + layout::SEEN_BOTTOM] = rng.pick(&off);
        Some(())
    }),
    back("a depth seen modulo 2^32 alone", |rng, settings, words| {
        let at = past_window(rng, settings, Edition::Two, words)?;
        let top = rng.below(settings.depth);
        words[at + layout::SEEN_WINDOW] = top;
        words[at + layout::SEEN_BOTTOM] = top.wrapping_sub(settings.depth);
        Some(())
    }),
    back(
        "a sub that does not fit edition 1",
        |rng, settings, words| {
            let bottom = words[layout::TAKE_WINDOW] - settings.depth;
            let put = bottom.checked_add(settings.rows)?;
            let taken = bottom.checked_sub(1 + rng.below(3))?;
            set_sub(rng, settings, words, [put, taken])
        },
    ),
];

/// Of another depth than the pool's.
fn other_depth(settings: &Settings) -> Option<u32> {
    let deepest = super::sizes::deepest(settings);
    match settings.depth {
        1 if deepest == 1 => None,
        1 => Some(2),
        depth => Some(depth - 1),
    }
}

fn clear_subs(settings: &Settings, words: &mut [u32]) {
    words[settings.subs_at()..settings.workers_at()].fill(0);
}

fn set_sub(
    rng: &mut Rng,
    settings: &Settings,
    words: &mut [u32],
    [put, taken]: [u32; 2],
) -> Option<()> {
    let j = rng.below(settings.width) as usize;
    let at = settings.subs_at() + layout::SUB_WORDS * j;
    words[at + layout::ITEMS_PUT] = put;
    words[at + layout::ITEMS_TAKEN] = taken;
    Some(())
}

fn set(settings: &Settings, words: &mut [u32], which: usize, word: u32) -> Option<()> {
    words[settings.sizes_at_in(Edition::Two) + which] = word;
    Some(())
}

/// Some worker that is past its window phase, if one is.
fn past_window(
    rng: &mut Rng,
    settings: &Settings,
    edition: Edition,
    words: &[u32],
) -> Option<usize> {
    let mut all = workers(settings, edition);
    all.retain(|at| is_past_window(words[at + layout::PHASE]));
    (!all.is_empty()).then(|| rng.pick(&all))
}
