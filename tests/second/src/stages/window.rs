//! Paper 01, Window.

use crate::answer::{Answer, MOVING};
use crate::pool::phase::{Side, Stage};
use crate::pool::{layout, Pool, Worker};

pub(super) fn window(pool: &Pool, worker: &mut Worker, side: Side) -> Answer {
    worker.seen_window = pool.words[window_word(pool, side)];
    worker.extra = if pool.is_queue() {
        0
    } else {
        pool.words[layout::WINDOW_VERSION]
    };
    worker.scan = 0;
    worker.seen = 0;
    worker.sum = 0;
    if pool.has_sizes() {
        see_size(pool, worker, side);
    }
    worker.phase = side.phase(Stage::Read);
    Answer::of(MOVING)
}

/// K8: the seen window's bottom and width; "a worker whose index lies beyond it
/// starts at index mod that width".
fn see_size(pool: &Pool, worker: &mut Worker, side: Side) {
    let size = pool.window_size(side);
    worker.seen_bottom = worker.seen_window - size.depth;
    worker.seen_width = size.width;
    worker.index %= size.width;
}

/// P, T or G.
pub(super) fn window_word(pool: &Pool, side: Side) -> usize {
    match (pool.is_queue(), side) {
        (true, Side::Put) => layout::PUT_WINDOW,
        (true, Side::Take) => layout::TAKE_WINDOW,
        (false, _) => layout::WINDOW,
    }
}
