//! K8: what a pool must be to move on to edition 2, and back from it. A stack always
//! moves: it has zeros for all that is said of sizes.

use crate::pool::edition::Edition;
use crate::pool::fit::queue_sub_fits;
use crate::pool::phase::is_past_window;
use crate::pool::size::Size;
use crate::pool::{layout, Pool, Worker};

pub(super) fn may_move(source: &Pool, new: Edition) -> bool {
    match (source.edition, new) {
        _ if !source.is_queue() => true,
        (Edition::One, Edition::Two) => may_move_on(source),
        (Edition::Two, Edition::One) => may_move_back(source),
        _ => true,
    }
}

/// "Except a line whose P minus T isn't 0 to 15 times d, whose T, or a window seen past
/// the window phase, is below d, or whose subs wouldn't fit."
fn may_move_on(source: &Pool) -> bool {
    let depth = source.settings.depth;
    live_windows(source).is_some()
        && source.words[layout::TAKE_WINDOW] >= depth
        && workers_past_window(source).all(|worker| worker.seen_window >= depth)
        && subs_fit(source, source.words[layout::TAKE_WINDOW] - depth)
}

/// How many there are from T to P, each of the pool's depth: 1 to 16, or none where
/// P minus T, a plain number, is no such multiple.
pub(super) fn live_windows(source: &Pool) -> Option<u32> {
    let [put, take] = [layout::PUT_WINDOW, layout::TAKE_WINDOW].map(|which| source.words[which]);
    let between = put.checked_sub(take)?;
    let depth = source.settings.depth;
    let fits = between.is_multiple_of(depth) && between / depth < layout::MOST_LIVE;
    fits.then(|| between / depth + 1)
}

/// "They move back only if no next size was ever set, a line's R is a multiple of d,
/// its sizes (next, live, seen past the window phase) are the pool's, and its subs fit
/// edition 1."
fn may_move_back(source: &Pool) -> bool {
    let size = Size::of_pool(&source.settings);
    source.words[source.size_word(layout::SIZE_SET)] == 0
        && source.settings.rows_are_whole_windows()
        && source.next_size() == size
        && (0..source.live()).all(|k| source.live_size(k) == size)
        && workers_past_window(source).all(|worker| has_seen(&worker, size))
        && subs_fit(source, 0)
}

/// By its words: a depth is a plain number, and not one modulo 2^32.
fn has_seen(worker: &Worker, size: Size) -> bool {
    worker.seen_width == size.width
        && worker.seen_window.checked_sub(worker.seen_bottom) == Some(size.depth)
}

fn workers_past_window<'a>(source: &'a Pool) -> impl Iterator<Item = Worker> + 'a {
    let workers = (0..source.settings.workers).map(|number| source.worker(number));
    workers.filter(|worker| is_past_window(worker.phase))
}

/// In edition 2 above the take window's bottom, in edition 1 as counts, above 0.
fn subs_fit(source: &Pool, take_bottom: u32) -> bool {
    (0..source.settings.width).all(|j| queue_sub_fits(source, j, take_bottom))
}
