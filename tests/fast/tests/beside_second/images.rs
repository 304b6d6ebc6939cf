//! Words that no make leads to.

use super::numbers::Numbers;
use second::phase::{is_of_kind, is_past_window};
use second::{in_edition, layout, Edition, Settings, QUEUE, STEP_LIMIT};

const TOP: u32 = u32::MAX;

/// A fit pool, with junk wherever fit allows it and often what lets a step go on.
pub fn fit_image(numbers: &mut Numbers, edition: Edition, settings: Settings) -> Vec<u32> {
    let len = settings.needed_words_in(edition) + numbers.pick(&[0, 0, 1, 7]);
    let mut words: Vec<u32> = (0..len).map(|_| numbers.any()).collect();
    in_edition::make(edition, &mut words, settings);
    words[layout::STEPS_COUNTED] = numbers.pick(&[0, 5, STEP_LIMIT - 2, STEP_LIMIT]);
    words[layout::PUTS_MADE] = numbers.pick(&[0, 9, TOP - 1, TOP]);
    for at in settings.cells_in(edition) {
        words[at] = numbers.pick(&[0, 1, 2, 3, 4, 5, TOP]);
    }
    if settings.kind == QUEUE {
        windows(numbers, edition, &settings, &mut words);
    } else {
        words[layout::WINDOW] = numbers.pick(&[0, 1, settings.depth, settings.rows, TOP]);
        words[layout::WINDOW_VERSION] = numbers.pick(&[0, 3, TOP]);
    }
    for j in 0..settings.width {
        let rows = sub(numbers, edition, &settings, &words);
        let at = settings.subs_at() + layout::SUB_WORDS * j as usize;
        words[at..at + layout::SUB_WORDS].copy_from_slice(&rows);
    }
    for number in 0..settings.workers {
        let at = settings.workers_at() + edition.worker_words() * number as usize;
        worker(numbers, edition, &settings, &mut words, at);
    }
    words
}

/// Up to 16 live windows, anywhere up to 2^32.
fn windows(numbers: &mut Numbers, edition: Edition, settings: &Settings, words: &mut [u32]) {
    if !edition.has_sizes() {
        words[layout::TAKE_WINDOW] = numbers.pick(&[0, settings.depth, 40, TOP - 3, TOP]);
        let shifts = settings.depth * numbers.below(4);
        words[layout::PUT_WINDOW] = words[layout::TAKE_WINDOW].wrapping_add(shifts);
        return;
    }
    let at = settings.sizes_at_in(edition);
    let most = (settings.rows / 2).min(64);
    let size = |numbers: &mut Numbers| {
        let any = [numbers.between(1, settings.width), numbers.between(1, most)];
        numbers.pick(&[
            any,
            any,
            [settings.width, settings.depth],
            [1, most],
            [settings.width, 1],
        ])
    };
    words[at..at + 2].copy_from_slice(&size(numbers));
    words[at + layout::SIZE_SET] = numbers.below(2);
    let live = numbers.pick(&[1, 1, 2, 3, 15, 16]);
    words[at + layout::LIVE] = live;
    let mut deep = 0;
    for k in 0..live as usize {
        let pair = size(numbers);
        deep += pair[1];
        let at = at + layout::SIZES + layout::SIZE_WORDS * k;
        words[at..at + 2].copy_from_slice(&pair);
    }
    let any = numbers.below(TOP - deep);
    let bottom = numbers.pick(&[0, 1, 7, any, TOP - deep - 1, TOP - deep]);
    words[layout::TAKE_WINDOW] = bottom + words[at + layout::SIZES + layout::SIZE_DEPTH];
    words[layout::PUT_WINDOW] = bottom + deep;
}

/// A fit one: near the windows, or far from them with equal rows.
fn sub(numbers: &mut Numbers, edition: Edition, settings: &Settings, words: &[u32]) -> [u32; 2] {
    let held = numbers.below(settings.rows + 1);
    if settings.kind != QUEUE {
        return [
            numbers.pick(&[0, held, settings.rows]),
            numbers.pick(&[0, 1, TOP]),
        ];
    }
    let take = words[layout::TAKE_WINDOW];
    let mut bottom = 0;
    if edition.has_sizes() {
        let first = settings.sizes_at_in(edition) + layout::SIZES + layout::SIZE_DEPTH;
        bottom = take - words[first];
    }
    let lag = numbers.below(4 * settings.rows);
    let near = take.saturating_sub(lag % 5);
    let taken = numbers.pick(&[near, near, take, bottom, bottom.saturating_sub(lag), TOP, 0]);
    let higher = taken.max(bottom);
    let most = settings.rows.min(TOP - higher);
    match numbers.pick(&[0, 1.min(most), most, held.min(most)]) {
        0 => [taken, taken],
        above => [higher + above, taken],
    }
}

fn worker(
    numbers: &mut Numbers,
    edition: Edition,
    settings: &Settings,
    words: &mut [u32],
    at: usize,
) {
    let own = at..at + edition.worker_words();
    let queue = settings.kind == QUEUE;
    let phases: Vec<u32> = (0..15).filter(|p| is_of_kind(settings.kind, *p)).collect();
    let phase = numbers.pick(&phases);
    let mut worker: Vec<u32> = own.clone().map(|_| numbers.pick(&[0, 1, 2, TOP])).collect();
    let mut visited = settings.width;
    if edition.has_sizes() {
        let [bottom, width] = match queue {
            true => {
                let tops = [words[layout::TAKE_WINDOW], words[layout::PUT_WINDOW]];
                let near = numbers.pick(&tops).saturating_sub(numbers.below(5));
                [
                    numbers.pick(&[near, near, 0, TOP]),
                    numbers.between(1, settings.width),
                ]
            }
            false => [0, 0],
        };
        worker[layout::SEEN_BOTTOM] = bottom;
        worker[layout::SEEN_WIDTH] = numbers.pick(&[width, width, settings.width * (width.min(1))]);
        if queue && is_past_window(phase) {
            visited = worker[layout::SEEN_WIDTH];
        } else if queue && numbers.chance(30) {
            worker[layout::SEEN_WIDTH] = numbers.any();
        }
    }
    worker[layout::PHASE] = phase;
    worker[layout::INDEX] = numbers.below(visited);
    worker[layout::SCAN] = numbers.pick(&[0, visited - 1, visited / 2]);
    let index = worker[layout::INDEX] as usize;
    let sub = &words[settings.subs_at() + layout::SUB_WORDS * index..];
    let windows = [words[8], words[9]];
    worker[layout::SEEN_WINDOW] = numbers.pick(&[windows[0], windows[1], 0, 3, TOP]);
    worker[layout::EXTRA] = numbers.pick(&[0, 1, words[layout::WINDOW_VERSION], TOP]);
    worker[layout::SEEN] = numbers.pick(&[sub[0], sub[1], sub[1], 0]);
    let put = sub[layout::ITEMS_PUT].max(*worker.get(layout::SEEN_BOTTOM).unwrap_or(&0));
    worker[layout::SUM] = numbers.pick(&[0, sub[0], sub[1], put, TOP]);
    words[own].copy_from_slice(&worker);
}

/// A fit one with one or two words changed, or cut.
pub fn damaged(numbers: &mut Numbers, edition: Edition, settings: Settings) -> Vec<u32> {
    let mut words = fit_image(numbers, edition, settings);
    if numbers.chance(15) {
        let short = settings.needed_words_in(edition) - 1;
        let any = numbers.below(short as u32) as usize;
        words.truncate(numbers.pick(&[short, any, 12, 11]));
        return words;
    }
    for _ in 0..numbers.between(1, 2) {
        let sizes = settings.sizes_at_in(edition);
        let len = words.len();
        let from = numbers.pick(&[
            0,
            settings.subs_at(),
            settings.workers_at(),
            sizes.min(len - 1),
        ]);
        let at = from + numbers.below((len - from) as u32) as usize;
        let word = words[at];
        let any = numbers.any();
        words[at] = numbers.pick(&[word.wrapping_add(1), word.wrapping_sub(1), 0, TOP, any]);
    }
    words
}

pub fn random_words(numbers: &mut Numbers, edition: Edition) -> Vec<u32> {
    let len = numbers.below(200) as usize;
    let mut words: Vec<u32> = (0..len).map(|_| numbers.below(5)).collect();
    if let Some(word) = words.get_mut(layout::EDITION) {
        *word = numbers.pick(&[edition.word(), edition.word(), 0, 1, 2, 7]);
    }
    words
}
