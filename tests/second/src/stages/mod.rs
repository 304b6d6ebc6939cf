//! Paper 01, One step: a file per paragraph. A stage changes the pool's shared
//! words and its own copy of the worker; `step` stores the copy. Every sum and
//! difference is modulo 2^32, and comparisons are made on the results. A queue's
//! rules stand here once for all editions: `pool/windows.rs` tells them apart.

mod check;
mod commit;
mod confirm;
mod distance;
mod read;
mod shift;
mod window;

use crate::answer::Answer;
use crate::pool::phase::{Side, Stage};
use crate::pool::{layout, Pool, Worker};

pub(crate) fn run(pool: &mut Pool, worker: &mut Worker, side: Side, stage: Stage) -> Answer {
    match stage {
        Stage::Window => window::window(pool, worker, side),
        Stage::Read => read::read(pool, worker, side),
        Stage::Check => check::check(pool, worker, side),
        Stage::Commit => commit::commit(pool, worker, side),
        Stage::Shift => shift::shift(pool, worker, side),
        Stage::Confirm => confirm::confirm(pool, worker, side),
    }
}

/// "Restart" is the window phase, the worker's other words kept.
fn restart(worker: &mut Worker, side: Side) {
    worker.phase = side.phase(Stage::Window);
}

/// K8: "only subs within the seen window's width are visited", and "that width is w
/// in a step's rules".
fn width(pool: &Pool, worker: &Worker) -> u32 {
    if pool.has_sizes() {
        worker.seen_width
    } else {
        pool.settings.width
    }
}

/// "Next" is index + 1 mod w.
fn next_index(pool: &Pool, worker: &mut Worker) {
    worker.index = (worker.index + 1) % width(pool, worker);
}

/// What read adds to the sum and confirm takes off, of the sub at the index: items put
/// (line) or the version (pile). K8: "A take's read and confirm sum the higher of a
/// sub's last put row and the seen window's bottom".
fn summed(pool: &Pool, worker: &Worker) -> u32 {
    if pool.is_queue() {
        let put = pool.sub(worker.index, layout::ITEMS_PUT);
        pool.higher(put, worker.seen_bottom)
    } else {
        pool.sub(worker.index, layout::VERSION)
    }
}

/// Adds 1 to scan; true at the w-th, where scan becomes 0 again. Fit keeps
/// scan below w, so it reaches w exactly.
fn scanned_all(pool: &Pool, worker: &mut Worker) -> bool {
    worker.scan += 1;
    if worker.scan == width(pool, worker) {
        worker.scan = 0;
        return true;
    }
    false
}
