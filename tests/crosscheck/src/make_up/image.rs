//! Images: words that need not come from make. A fit image has junk wherever
//! fit allows it, and now and then words that agree, so that its steps reach
//! every outcome.

use super::junk;
use super::live_windows;
use super::settings::{whole_windows, within, Size};
use super::values::Values;
use crate::rng::Rng;
use second::phase;
use second::{layout, Edition, Settings, QUEUE};

/// A fit one more often than not.
pub fn any(rng: &mut Rng) -> Vec<u32> {
    any_of_edition(rng, Edition::CURRENT)
}

pub fn any_of_edition(rng: &mut Rng, edition: Edition) -> Vec<u32> {
    match rng.below(10) {
        0 => random(rng),
        1 => short(rng, edition),
        2 | 3 => damaged(rng, edition),
        _ => fit(rng, edition),
    }
}

fn fit(rng: &mut Rng, edition: Edition) -> Vec<u32> {
    let size = rng.pick(&[Size::Small, Size::Small, Size::Small, Size::Medium]);
    let mut settings = within(rng, size);
    if !edition.has_sizes() {
        settings = whole_windows(settings);
    }
    of_edition(rng, &settings, edition)
}

/// Fit but for the stride, which may be off limits.
pub fn of(rng: &mut Rng, settings: &Settings) -> Vec<u32> {
    of_edition(rng, settings, Edition::CURRENT)
}

pub fn of_edition(rng: &mut Rng, settings: &Settings, edition: Edition) -> Vec<u32> {
    let beyond = rng.below(4) as usize;
    let needed = settings.needed_words_in(edition);
    let mut words = junk::words(rng, needed + beyond);
    header(rng, settings, &mut words);
    words[layout::EDITION] = edition.word();
    if edition.has_sizes() {
        live_windows::set(rng, settings, edition, &mut words);
    }
    let bottom = live_windows::take_bottom(settings, edition, &words);
    for j in 0..settings.width as usize {
        let at = settings.subs_at() + layout::SUB_WORDS * j;
        sub(rng, settings, &mut words, at);
        above_bottom(settings, &mut words[at..], bottom);
    }
    for i in 0..settings.workers as usize {
        let at = settings.workers_at() + edition.worker_words() * i;
        worker(rng, settings, edition, &mut words, at);
        if edition != Edition::Zero && rng.chance(40) {
            words[at + layout::FAILED_COMMITS] = junk::near_the_top(rng);
        }
    }
    cells(rng, &mut words[settings.cells_in(edition)]);
    words
}

/// Stamps mostly near each other, and values of some share of spacers.
fn cells(rng: &mut Rng, words: &mut [u32]) {
    let values = Values::new(rng);
    let near = rng.chance(80);
    for cell in words.chunks_mut(layout::CELL_WORDS) {
        cell[layout::CELL_VALUE] = values.word(rng);
        if near {
            cell[layout::CELL_STAMP] %= 16;
        }
    }
}

/// A fit image with one word changed, mostly one that the check reads.
fn damaged(rng: &mut Rng, edition: Edition) -> Vec<u32> {
    let mut words = fit(rng, edition);
    let settings = Settings::of_words(&words);
    let mut checked = vec![layout::PHASE, layout::INDEX, layout::SCAN];
    if edition.has_sizes() {
        checked.extend([layout::SEEN_BOTTOM, layout::SEEN_WIDTH]);
    }
    let in_worker = settings.workers_at()
        + edition.worker_words() * rng.below(settings.workers) as usize
        + rng.pick(&checked);
    let after_cells = edition.size_words() as u32;
    let at = match rng.below(6) {
        0 => rng.below(layout::HEADER_WORDS as u32) as usize,
        1 => settings.subs_at() + rng.below(2 * settings.width) as usize,
        2 => in_worker,
        3..=4 if after_cells > 0 => {
            let first = rng.below(after_cells);
            let any = rng.below(after_cells);
            settings.sizes_at_in(edition) + rng.pick(&[any, first % 8]) as usize
        }
        _ => rng.below(words.len() as u32) as usize,
    };
    words[at] = match rng.below(4) {
        0 => words[at].wrapping_add(1),
        1 => words[at].wrapping_sub(1),
        2 => words[at] ^ 1 << rng.below(32),
        _ => junk::word(rng),
    };
    words
}

/// A fit or damaged image, cut near 12 words or near the needed ones.
fn short(rng: &mut Rng, edition: Edition) -> Vec<u32> {
    let mut words = if rng.chance(80) {
        fit(rng, edition)
    } else {
        damaged(rng, edition)
    };
    let needed = words.len();
    let len = match rng.below(3) {
        0 => rng.below(15) as usize,
        1 => needed - rng.below(5) as usize,
        _ => rng.below(needed as u32 + 1) as usize,
    };
    words.truncate(len);
    words
}

/// No pool at all.
fn random(rng: &mut Rng) -> Vec<u32> {
    let len = rng.below(100) as usize;
    junk::words(rng, len)
}

fn header(rng: &mut Rng, settings: &Settings, words: &mut [u32]) {
    set_settings(settings, words);
    words[layout::STEPS_COUNTED] = junk::step_count(rng);
    windows(rng, settings, words);
}

pub fn set_settings(settings: &Settings, words: &mut [u32]) {
    words[layout::KIND] = settings.kind;
    words[layout::WIDTH] = settings.width;
    words[layout::DEPTH] = settings.depth;
    words[layout::SHIFT] = settings.shift;
    words[layout::ROWS] = settings.rows;
    words[layout::WORKERS] = settings.workers;
    words[layout::STRIDE] = settings.stride;
}

/// P near T, or G within the rows; now and then near 2^32, or left as junk.
fn windows(rng: &mut Rng, settings: &Settings, words: &mut [u32]) {
    let near_the_top = u32::MAX - rng.below(settings.depth + 2);
    let near = rng.below(2 * settings.rows);
    if settings.kind == QUEUE {
        match rng.below(10) {
            0 => words[layout::PUT_WINDOW] = near_the_top,
            1..=3 => words[layout::TAKE_WINDOW] = near_the_top,
            _ => {}
        }
        if rng.chance(60) {
            let take_window = words[layout::TAKE_WINDOW];
            words[layout::PUT_WINDOW] = take_window.wrapping_add(near).wrapping_sub(settings.depth);
        }
    } else {
        match rng.below(10) {
            0..=1 => words[layout::WINDOW] = near_the_top,
            2..=6 => words[layout::WINDOW] = near,
            _ => {}
        }
    }
}

/// Counts that fit, often none, one, all but one or R items.
fn sub(rng: &mut Rng, settings: &Settings, words: &mut [u32], at: usize) {
    let some = rng.below(settings.rows + 1);
    let items = rng.pick(&[0, 0, 1, settings.rows - 1, settings.rows, some]);
    if settings.kind == QUEUE {
        let taken = near_windows(rng, settings, words).min(u32::MAX - items);
        words[at + layout::ITEMS_PUT] = taken + items;
        words[at + layout::ITEMS_TAKEN] = taken;
    } else {
        words[at + layout::ITEMS_HELD] = items;
    }
}

/// A queue's sub whose last put row is not above the take window's bottom is fit without
/// items alone, and one whose rows were counted from below it has up to R above it.
fn above_bottom(settings: &Settings, sub: &mut [u32], bottom: u32) {
    let [put, taken] = [sub[layout::ITEMS_PUT], sub[layout::ITEMS_TAKEN]];
    if settings.kind != QUEUE || put == taken || taken >= bottom {
        return;
    }
    sub[layout::ITEMS_PUT] = match bottom.checked_add(put - taken) {
        Some(above) => above,
        None => taken,
    };
}

/// A count below, at or above the take window, or junk.
fn near_windows(rng: &mut Rng, settings: &Settings, words: &[u32]) -> u32 {
    if rng.chance(30) {
        let any = junk::word(rng);
        return rng.pick(&[u32::MAX, 0, any]);
    }
    let off = rng.below(2 * settings.depth + 2);
    words[layout::TAKE_WINDOW]
        .wrapping_add(settings.depth)
        .wrapping_sub(off)
}

fn worker(rng: &mut Rng, settings: &Settings, edition: Edition, words: &mut [u32], at: usize) {
    let phases: Vec<u32> = (0..15)
        .filter(|phase| phase::is_of_kind(settings.kind, *phase))
        .collect();
    words[at + layout::PHASE] = rng.pick(&phases);
    words[at + layout::INDEX] = rng.below(settings.width);
    words[at + layout::SCAN] = if rng.chance(50) {
        settings.width - 1
    } else {
        rng.below(settings.width)
    };
    live_windows::set_seen(rng, settings, edition, words, at);
    let index = words[at + layout::INDEX] as usize;
    let sub_at = settings.subs_at() + layout::SUB_WORDS * index;
    if rng.chance(60) {
        let count = rng.pick(&[layout::ITEMS_PUT, layout::ITEMS_TAKEN]);
        words[at + layout::SEEN] = words[sub_at + count];
    }
    if rng.chance(60) {
        let window = rng.pick(&[layout::PUT_WINDOW, layout::TAKE_WINDOW]);
        words[at + layout::SEEN_WINDOW] = words[window];
    }
    if rng.chance(60) {
        words[at + layout::EXTRA] = if settings.kind == QUEUE {
            rng.pick(&[0, u32::MAX])
        } else {
            words[layout::WINDOW_VERSION]
        };
    }
    if rng.chance(40) {
        words[at + layout::SUM] = sum_to_come(settings, edition, words, at);
    }
}

/// The sum that confirm brings to 0, if no sub changes meanwhile.
fn sum_to_come(settings: &Settings, edition: Edition, words: &[u32], at: usize) -> u32 {
    let which = if settings.kind == QUEUE {
        layout::ITEMS_PUT
    } else {
        layout::VERSION
    };
    let sees = settings.kind == QUEUE && edition.has_sizes();
    let (width, bottom) = match phase::is_past_window(words[at + layout::PHASE]) && sees {
        true => (
            words[at + layout::SEEN_WIDTH],
            words[at + layout::SEEN_BOTTOM],
        ),
        false => (settings.width, 0),
    };
    let left = width - words[at + layout::SCAN];
    (0..left)
        .map(|k| (words[at + layout::INDEX] + k) % width)
        .map(|j| words[settings.subs_at() + layout::SUB_WORDS * j as usize + which])
        .map(|row| row.max(bottom))
        .fold(0, u32::wrapping_add)
}
