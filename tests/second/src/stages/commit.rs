//! Paper 01, Commit.

use super::distance::distance;
use super::restart;
use crate::answer::{Answer, MOVING, PUT, TAKEN, UNFIT};
use crate::pool::phase::Side;
use crate::pool::{layout, Pool, Worker};

pub(super) fn commit(pool: &mut Pool, worker: &mut Worker, side: Side) -> Answer {
    if now(pool, worker.index, side) != worker.seen {
        hop(pool, worker);
        count_failed(worker);
        restart(worker, side);
        return Answer::of(MOVING);
    }
    let row = row(pool, worker, side);
    match side {
        Side::Put if !has_free_cell(pool, worker.index, row) => Answer::of(UNFIT),
        Side::Put => commit_put(pool, worker, row),
        Side::Take if !has_item(pool, worker.index, row) => Answer::of(UNFIT),
        Side::Take => commit_take(pool, worker, row),
    }
}

/// Put: "the row above", and in a queue K8's "row above the higher of the sub's last
/// put row and the seen window's bottom". Take: "the oldest (line) or top (pile) row",
/// the oldest being above the last taken one, "likewise". A plain number, which may be
/// 2^32.
fn row(pool: &Pool, worker: &Worker, side: Side) -> u64 {
    let above = |which| {
        let last = pool.sub(worker.index, which);
        u64::from(pool.higher(last, worker.seen_bottom)) + 1
    };
    match (pool.is_queue(), side) {
        (true, Side::Put) => above(layout::ITEMS_PUT),
        (true, Side::Take) => above(layout::ITEMS_TAKEN),
        (false, Side::Put) => u64::from(pool.sub(worker.index, layout::ITEMS_HELD)) + 1,
        (false, Side::Take) => u64::from(pool.sub(worker.index, layout::ITEMS_HELD)),
    }
}

/// K8: "A commit has no free cell if its row passes the higher of last taken row and
/// take window's bottom by more than R". Reading: plain numbers, so that a row at or
/// below it has one.
fn has_free_cell(pool: &Pool, sub: u32, row: u64) -> bool {
    let below = if pool.is_queue() {
        pool.higher(pool.sub(sub, layout::ITEMS_TAKEN), pool.take_bottom())
    } else {
        0
    };
    row <= u64::from(below) + u64::from(pool.settings.rows)
}

/// "And no item if it passes the last put row"; of a stack if no row is held.
fn has_item(pool: &Pool, sub: u32, row: u64) -> bool {
    if pool.is_queue() {
        row <= u64::from(pool.sub(sub, layout::ITEMS_PUT))
    } else {
        row > 0
    }
}

/// "After a commit that failed, only there the index moves on by the stride
/// instead of by 1", and a stride of 0 stands for 1. K8: that "is mod the pool's w",
/// whatever the seen window's width.
fn hop(pool: &Pool, worker: &mut Worker) {
    let stride = pool.settings.stride.max(1);
    worker.index = (worker.index + stride) % pool.settings.width;
}

/// K5: "its failed commits since make", which "counts modulo 2^32".
fn count_failed(worker: &mut Worker) {
    worker.failed_commits = worker.failed_commits.wrapping_add(1);
}

/// Items put (queue put), items taken (queue take) or the version (stack).
fn now(pool: &Pool, sub: u32, side: Side) -> u32 {
    let which = match (pool.is_queue(), side) {
        (true, Side::Put) => layout::ITEMS_PUT,
        (true, Side::Take) => layout::ITEMS_TAKEN,
        (false, _) => layout::VERSION,
    };
    pool.sub(sub, which)
}

/// "A put stores value and new stamp in the row above and answers 1." Reading: the row
/// that is stored and answered is modulo 2^32.
fn commit_put(pool: &mut Pool, worker: &Worker, row: u64) -> Answer {
    let sub = worker.index;
    let count = if pool.is_queue() {
        layout::ITEMS_PUT
    } else {
        layout::ITEMS_HELD
    };
    let row = row as u32;
    let stamp = pool.words[layout::PUTS_MADE].wrapping_add(1);
    pool.set_cell(sub, row, layout::CELL_VALUE, worker.value);
    pool.set_cell(sub, row, layout::CELL_STAMP, stamp);
    pool.set_sub(sub, count, row);
    pool.words[layout::PUTS_MADE] = stamp;
    grow_version(pool, sub);
    Answer {
        number: PUT,
        value: worker.value,
        sub,
        row,
        stamp,
        distance: 0,
    }
}

/// "A take answers 2 with the oldest (line) or top (pile) row." A taken cell
/// keeps its old words.
fn commit_take(pool: &mut Pool, worker: &Worker, row: u64) -> Answer {
    let sub = worker.index;
    // No more than a last put row, or than R.
    let row = row as u32;
    let stamp = pool.cell(sub, row, layout::CELL_STAMP);
    let answer = Answer {
        number: TAKEN,
        value: pool.cell(sub, row, layout::CELL_VALUE),
        sub,
        row,
        stamp,
        distance: distance(pool, stamp),
    };
    if pool.is_queue() {
        pool.set_sub(sub, layout::ITEMS_TAKEN, row);
    } else {
        pool.set_sub(sub, layout::ITEMS_HELD, row - 1);
    }
    grow_version(pool, sub);
    answer
}

/// "A pile's version grows by one."
fn grow_version(pool: &mut Pool, sub: u32) {
    if !pool.is_queue() {
        let version = pool.sub(sub, layout::VERSION).wrapping_add(1);
        pool.set_sub(sub, layout::VERSION, version);
    }
}
