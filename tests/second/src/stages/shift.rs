//! Paper 01, Shift.

use super::restart;
use super::window::window_word;
use crate::answer::{Answer, EMPTY, FULL, MOVING};
use crate::pool::phase::{Side, Stage};
use crate::pool::{layout, Pool, Worker};

/// "If the window (line) or its version (pile) isn't the seen one: restart."
pub(super) fn shift(pool: &mut Pool, worker: &mut Worker, side: Side) -> Answer {
    let seen_still = if pool.is_queue() {
        pool.words[window_word(pool, side)] == worker.seen_window
    } else {
        pool.words[layout::WINDOW_VERSION] == worker.extra
    };
    if !seen_still {
        restart(worker, side);
        return Answer::of(MOVING);
    }
    match (pool.is_queue(), side) {
        (true, Side::Put) => shift_queue_put(pool, worker),
        (true, Side::Take) => shift_queue_take(pool, worker),
        (false, _) => shift_stack(pool, worker, side),
    }
}

/// K8: "A put shift needs new top minus the take window's bottom at most R, and fewer
/// than 16 live windows; else it is full." Where each window has the pool's depth, the
/// top is P + d and the bottom T - d: paper 01's P + 2d - T. Reading: that is modulo
/// 2^32, also where no make leads (P below T).
fn shift_queue_put(pool: &mut Pool, worker: &mut Worker) -> Answer {
    let put_window = pool.words[layout::PUT_WINDOW];
    let new_top = put_window.wrapping_add(pool.next_size().depth);
    let reach = new_top.wrapping_sub(pool.take_bottom());
    if reach <= pool.settings.rows && pool.may_have_another_window() {
        pool.add_window();
        restart(worker, Side::Put);
        Answer::of(MOVING)
    } else {
        Answer::of(FULL)
    }
}

fn shift_queue_take(pool: &mut Pool, worker: &mut Worker) -> Answer {
    if pool.words[layout::TAKE_WINDOW] < pool.words[layout::PUT_WINDOW] {
        pool.drop_take_window();
        restart(worker, Side::Take);
        Answer::of(MOVING)
    } else {
        Answer::of(EMPTY)
    }
}

fn shift_stack(pool: &mut Pool, worker: &mut Worker, side: Side) -> Answer {
    match moved_window(pool, side) {
        Some(window) => {
            let version = pool.words[layout::WINDOW_VERSION];
            pool.words[layout::WINDOW] = window;
            pool.words[layout::WINDOW_VERSION] = version.wrapping_add(1);
            restart(worker, side);
        }
        None => worker.phase = side.phase(Stage::Confirm),
    }
    Answer::of(MOVING)
}

/// Put: G grows by s if G + s <= R. Take: G falls by s if G > d. Reading:
/// G + s is modulo 2^32, so a G near 2^32 may come round to a small one.
fn moved_window(pool: &Pool, side: Side) -> Option<u32> {
    let window = pool.words[layout::WINDOW];
    let settings = &pool.settings;
    match side {
        Side::Put => Some(window.wrapping_add(settings.shift)).filter(|g| *g <= settings.rows),
        Side::Take => (window > settings.depth).then(|| window.wrapping_sub(settings.shift)),
    }
}
