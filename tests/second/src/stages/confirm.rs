//! Paper 01, Confirm, one sub a step.

use super::{next_index, restart, scanned_all, summed};
use crate::answer::{Answer, EMPTY, FULL, MOVING};
use crate::pool::phase::Side;
use crate::pool::{layout, Pool, Worker};

pub(super) fn confirm(pool: &Pool, worker: &mut Worker, side: Side) -> Answer {
    // "Confirm's subtraction may pass below 0."
    worker.sum = worker.sum.wrapping_sub(summed(pool, worker));
    next_index(pool, worker);
    if !scanned_all(pool, worker) {
        return Answer::of(MOVING);
    }
    if worker.sum != 0 || has_put_window_moved(pool, worker) {
        restart(worker, side);
        return Answer::of(MOVING);
    }
    match side {
        Side::Put => Answer::of(FULL),
        Side::Take => Answer::of(EMPTY),
    }
}

/// K8: a take's "confirm answers empty only if the put window's top also equals the
/// seen one".
fn has_put_window_moved(pool: &Pool, worker: &Worker) -> bool {
    pool.has_sizes() && pool.words[layout::PUT_WINDOW] != worker.seen_window
}
