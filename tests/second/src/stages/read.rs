//! Paper 01, Read, of the sub at the index.

use super::{next_index, scanned_all, summed};
use crate::answer::{Answer, MOVING};
use crate::pool::phase::{Side, Stage};
use crate::pool::{layout, Pool, Worker};

/// What the read saw; a hit carries the new seen.
enum Look {
    Hit(u32),
    Miss,
    /// A queue take found no item below its window.
    Bare,
}

pub(super) fn read(pool: &Pool, worker: &mut Worker, side: Side) -> Answer {
    add_to_sum(pool, worker, side);
    match look(pool, worker, side) {
        Look::Hit(seen) => {
            worker.seen = seen;
            let next = if pool.is_queue() {
                Stage::Commit
            } else {
                Stage::Check
            };
            worker.phase = side.phase(next);
        }
        Look::Miss => miss(pool, worker, side),
        Look::Bare => {
            // Reading: modulo 2^32 like every sum, so 2^32 - 1 becomes 0.
            worker.extra = worker.extra.wrapping_add(1);
            miss(pool, worker, side);
        }
    }
    Answer::of(MOVING)
}

/// "The sum grows by items put (line take) or by the version (pile), hit or
/// miss"; in a queue put it stays.
fn add_to_sum(pool: &Pool, worker: &mut Worker, side: Side) {
    let grown_by = match (pool.is_queue(), side) {
        (true, Side::Put) => 0,
        _ => summed(pool, worker),
    };
    worker.sum = worker.sum.wrapping_add(grown_by);
}

/// A queue's last rows as they are, whatever the seen window's bottom.
fn look(pool: &Pool, worker: &Worker, side: Side) -> Look {
    match (pool.is_queue(), side) {
        (true, Side::Put) => look_queue_put(pool, worker),
        (true, Side::Take) => look_queue_take(pool, worker),
        (false, _) => look_stack(pool, worker, side),
    }
}

fn look_queue_put(pool: &Pool, worker: &Worker) -> Look {
    let put = pool.sub(worker.index, layout::ITEMS_PUT);
    if put < worker.seen_window {
        Look::Hit(put)
    } else {
        Look::Miss
    }
}

fn look_queue_take(pool: &Pool, worker: &Worker) -> Look {
    let put = pool.sub(worker.index, layout::ITEMS_PUT);
    let taken = pool.sub(worker.index, layout::ITEMS_TAKEN);
    if taken >= worker.seen_window {
        Look::Miss
    } else if put == taken {
        Look::Bare
    } else {
        Look::Hit(taken)
    }
}

/// Reading: a seen window below d, which no make leads to, makes
/// "seen window - d" a number near 2^32, and the take misses.
fn look_stack(pool: &Pool, worker: &Worker, side: Side) -> Look {
    let held = pool.sub(worker.index, layout::ITEMS_HELD);
    let hit = match side {
        Side::Put => held < worker.seen_window,
        Side::Take => held > worker.seen_window.wrapping_sub(pool.settings.depth),
    };
    if hit {
        Look::Hit(pool.sub(worker.index, layout::VERSION))
    } else {
        Look::Miss
    }
}

/// "A miss takes the next index and adds 1 to scan. At w misses scan becomes
/// 0, and it goes to shift, or to confirm if a line take's extra isn't 0."
fn miss(pool: &Pool, worker: &mut Worker, side: Side) {
    next_index(pool, worker);
    if scanned_all(pool, worker) {
        let bare_seen = pool.is_queue() && side == Side::Take && worker.extra != 0;
        let next = if bare_seen {
            Stage::Confirm
        } else {
            Stage::Shift
        };
        worker.phase = side.phase(next);
    }
}
