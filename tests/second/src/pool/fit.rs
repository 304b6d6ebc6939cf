//! Paper 01, Fit, in the order of its refusals (Returned by the calls, Order), and
//! K8's sentences about edition 2.

use super::edition::Edition;
use super::layout;
use super::phase;
use super::settings::Settings;
use super::view::Pool;
use super::worker::Worker;
use crate::answer::{TOO_SHORT, UNFIT, WRONG_EDITION};

/// The pool of this edition in these words, or the number of the refusal: 21 for 12
/// words, 23 for the settings, word 10 among them, and the edition, 21 for the
/// needed words, 23 for windows, subs and workers.
pub(crate) fn fit(words: &mut [u32], edition: Edition) -> Result<Pool<'_>, u32> {
    in_order(words, edition, UNFIT)
}

/// The same for a move: K6 "refuses an image of the wrong edition for the direction
/// with 31; length and fitness keep their numbers."
pub(crate) fn fit_to_move(words: &mut [u32], edition: Edition) -> Result<Pool<'_>, u32> {
    in_order(words, edition, WRONG_EDITION)
}

fn in_order(words: &mut [u32], edition: Edition, if_another: u32) -> Result<Pool<'_>, u32> {
    if words.len() < layout::HEADER_WORDS {
        return Err(TOO_SHORT);
    }
    let settings = Settings::of_words(words);
    if !settings.within_limits_in(edition) {
        return Err(UNFIT);
    }
    if words[layout::EDITION] != edition.word() {
        return Err(if_another);
    }
    if words.len() < settings.needed_words_in(edition) {
        return Err(TOO_SHORT);
    }
    let pool = Pool {
        words,
        settings,
        edition,
    };
    // The windows first: a sub is held against the take window's bottom.
    let fits = sizes_fit(&pool)
        && (0..settings.width).all(|j| sub_fits(&pool, j))
        && (0..settings.workers).all(|i| worker_fits(&pool, i));
    if !fits {
        return Err(UNFIT);
    }
    Ok(pool)
}

/// The words after the cells: a queue's windows, "zero beyond; a pile has zeros in
/// all of these".
fn sizes_fit(pool: &Pool) -> bool {
    let sizes = pool.settings.sizes_at_in(pool.edition);
    let words = &pool.words[sizes..sizes + pool.edition.size_words()];
    if !pool.has_sizes() {
        return words.iter().all(|word| *word == 0);
    }
    let live = pool.live();
    if words[layout::SIZE_SET] > 1 || !(1..=layout::MOST_LIVE).contains(&live) {
        return false;
    }
    let beyond = layout::SIZES + layout::SIZE_WORDS * live as usize;
    words[beyond..].iter().all(|word| *word == 0) && windows_fit(pool)
}

/// "Next and live sizes are in limits, and from the first top, T, they lead up to P
/// with no bottom below 0": plain numbers, and a later bottom is a top.
fn windows_fit(pool: &Pool) -> bool {
    let depth = |k| u64::from(pool.live_size(k).depth);
    let top = |which: usize| u64::from(pool.words[which]);
    let lead_up_to = top(layout::TAKE_WINDOW) + (1..pool.live()).map(depth).sum::<u64>();
    pool.next_size().within_limits(&pool.settings)
        && (0..pool.live()).all(|k| pool.live_size(k).within_limits(&pool.settings))
        && depth(0) <= top(layout::TAKE_WINDOW)
        && lead_up_to == top(layout::PUT_WINDOW)
}

/// Taken at most put, and put minus taken, or held, at most R.
fn sub_fits(pool: &Pool, j: u32) -> bool {
    if pool.is_queue() {
        queue_sub_fits(pool, j, pool.higher(0, pool.take_bottom()))
    } else {
        pool.sub(j, layout::ITEMS_HELD) <= pool.settings.rows
    }
}

/// K8: "if its two last rows are equal, or if the last put row is above the higher
/// of the last taken row and the take window's bottom by 1 to R". With a bottom of 0
/// that is what paper 01 says of counts.
pub(crate) fn queue_sub_fits(pool: &Pool, j: u32, take_bottom: u32) -> bool {
    let put = pool.sub(j, layout::ITEMS_PUT);
    let taken = pool.sub(j, layout::ITEMS_TAKEN);
    let higher = taken.max(take_bottom);
    put == taken || put > higher && put - higher <= pool.settings.rows
}

/// A phase of its kind, index and scan below w; the other words are free, but for
/// those of the seen window.
fn worker_fits(pool: &Pool, number: u32) -> bool {
    let worker = pool.worker(number);
    phase::is_of_kind(pool.settings.kind, worker.phase)
        && worker.index < pool.settings.width
        && worker.scan < pool.settings.width
        && seen_window_fits(pool, &worker)
}

/// "A line's worker past its window phase fits only with a seen width of 1 to w, and
/// index and scan below that width." A stack's has zeros.
fn seen_window_fits(pool: &Pool, worker: &Worker) -> bool {
    if !pool.has_sizes() {
        return worker.seen_bottom == 0 && worker.seen_width == 0;
    }
    !phase::is_past_window(worker.phase)
        || (1..=pool.settings.width).contains(&worker.seen_width)
            && worker.index < worker.seen_width
            && worker.scan < worker.seen_width
}
