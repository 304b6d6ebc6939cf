//! K8: "Forward, a line's next size, each live window and the seen window of a worker
//! past its window phase get the pool's sizes, all else is kept and other new words are
//! zero; backward, what edition 1 hasn't is dropped."

use super::excepted::live_windows;
use crate::pool::phase::is_past_window;
use crate::pool::size::Size;
use crate::pool::{Pool, Worker};

/// Of a source whose windows have no sizes of their own; another one's is kept, and
/// where the target has no word for it dropped.
pub(super) fn with_seen_size(source: &Pool, worker: Worker) -> Worker {
    if source.edition.has_sizes() || !source.is_queue() || !is_past_window(worker.phase) {
        return worker;
    }
    Worker {
        seen_bottom: worker.seen_window.wrapping_sub(source.settings.depth),
        seen_width: source.settings.width,
        ..worker
    }
}

/// The words after the cells of a target that has them.
pub(super) fn give_sizes(target: &mut Pool) {
    let all = target.size_word(0)..target.size_word(target.edition.size_words());
    target.words[all].fill(0);
    if !target.has_sizes() {
        return;
    }
    let size = Size::of_pool(&target.settings);
    target.set_next_size(size);
    let live = live_windows(target).expect("it may move on");
    target.set_live(live);
    for k in 0..live {
        target.set_live_size(k, size);
    }
}
