//! Paper 01, Check (pile): the window has not moved since it was seen.

use super::restart;
use crate::answer::{Answer, MOVING};
use crate::pool::phase::{Side, Stage};
use crate::pool::{layout, Pool, Worker};

pub(super) fn check(pool: &Pool, worker: &mut Worker, side: Side) -> Answer {
    if pool.words[layout::WINDOW_VERSION] == worker.extra {
        worker.phase = side.phase(Stage::Commit);
    } else {
        restart(worker, side);
    }
    Answer::of(MOVING)
}
