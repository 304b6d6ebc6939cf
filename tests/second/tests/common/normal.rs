//! Words that go on alike, made equal: as long as the step count lets them, two
//! pools from make with the same normal words answer the same later calls with
//! the same numbers, and have the same normal words afterwards.
//!
//! What no later step goes by is zero. A queue's counts and windows and a stack's
//! versions only grow, and a step only compares them or adds up a pass of
//! them; so they come down again, with all that the workers have seen of them.
//! Where windows have sizes this is of pools in which none was set: no sub is then
//! left behind.

use super::edition_of;
use second::phase::{decode, is_past_window, Side, Stage};
use second::{layout, Settings, QUEUE};

pub fn normal(words: &[u32]) -> Vec<u32> {
    let settings = Settings::of_words(words);
    let mut normal = words.to_vec();
    normal[layout::STEPS_COUNTED] = 0;
    normal[layout::PUTS_MADE] = 0;
    let edition = edition_of(words);
    normal[settings.cells_in(edition)].fill(0);
    let subs = settings.subs_at()..settings.workers_at();
    if settings.kind == QUEUE {
        let floor = queue_floor(words);
        for at in subs.chain([layout::PUT_WINDOW, layout::TAKE_WINDOW]) {
            normal[at] = down(words[at], floor);
        }
    } else {
        let versions = subs.skip(layout::VERSION).step_by(layout::SUB_WORDS);
        for at in versions.chain([layout::WINDOW_VERSION]) {
            normal[at] = down(words[at], words[at]);
        }
    }
    let workers = settings.workers_at()..settings.cells_at_in(edition);
    for at in workers.step_by(edition.worker_words()) {
        for which in layout::VALUE..edition.worker_words() {
            normal[at + which] = worker_word(words, &normal, at, which);
        }
    }
    normal
}

/// A count of `floor` or more comes down to 1 or more. One below the floor was
/// seen once and is never met again: 0.
fn down(count: u32, floor: u32) -> u32 {
    (count + 1).saturating_sub(floor)
}

/// No sub's count, and no window, of a queue is below this.
fn queue_floor(words: &[u32]) -> u32 {
    words[layout::TAKE_WINDOW] - words[layout::DEPTH]
}

/// The word called `which` of the worker whose words begin at `at`; `normal`
/// has its subs already.
fn worker_word(words: &[u32], normal: &[u32], at: usize, which: usize) -> u32 {
    let word = words[at + which];
    let queue = words[layout::KIND] == QUEUE;
    let index = words[at + layout::INDEX];
    match which {
        layout::INDEX => word,
        // Fit asks for it; a stack has 0.
        layout::SEEN_WIDTH if is_past_window(words[at + layout::PHASE]) => word,
        _ if !read_later(queue, words[at + layout::PHASE], which) => 0,
        layout::SEEN_WINDOW | layout::SEEN | layout::SEEN_BOTTOM if queue => {
            down(word, queue_floor(words))
        }
        layout::SEEN => down(word, words[sub_word(words, index, layout::VERSION)]),
        layout::EXTRA if !queue => down(word, words[layout::WINDOW_VERSION]),
        layout::SUM => {
            // That a count has grown since it was added stays seen: the sum
            // does not come to 0 any more.
            let grown = word != to_confirm(words, words, at);
            to_confirm(words, normal, at).wrapping_sub(u32::from(grown))
        }
        _ => word,
    }
}

/// Whether the phase or one that follows reads the word, before it is written.
fn read_later(queue: bool, phase: u32, which: usize) -> bool {
    use layout::{EXTRA, SCAN, SEEN, SEEN_BOTTOM, SEEN_WINDOW, SUM};
    let read: &[usize] = match decode(phase) {
        None | Some((_, Stage::Window)) => &[],
        Some((Side::Put, Stage::Read)) if queue => &[SEEN_WINDOW, SEEN_BOTTOM, SCAN],
        Some((_, Stage::Read)) => &[SEEN_WINDOW, SEEN_BOTTOM, EXTRA, SCAN, SUM],
        Some((_, Stage::Check)) => &[EXTRA, SEEN],
        Some((_, Stage::Commit)) => &[SEEN, SEEN_BOTTOM],
        Some((_, Stage::Shift)) if queue => &[SEEN_WINDOW],
        Some((_, Stage::Shift)) => &[EXTRA, SUM],
        Some((_, Stage::Confirm)) if queue => &[SEEN_WINDOW, SEEN_BOTTOM, SCAN, SUM],
        Some((_, Stage::Confirm)) => &[SCAN, SUM],
    };
    read.contains(&which)
}

/// What the sum of the worker at `at` is if nothing has grown: in a read the
/// counts of the subs that were read, then those of the subs to confirm.
fn to_confirm(words: &[u32], counts: &[u32], at: usize) -> u32 {
    let [width, index, scan] = [
        words[layout::WIDTH],
        words[at + layout::INDEX],
        words[at + layout::SCAN],
    ];
    let (first, number) = match decode(words[at + layout::PHASE]) {
        Some((_, Stage::Read)) => (index + width - scan, scan),
        _ => (index, width - scan),
    };
    let which = if words[layout::KIND] == QUEUE {
        layout::ITEMS_PUT
    } else {
        layout::VERSION
    };
    (first..first + number)
        .map(|j| counts[sub_word(words, j % width, which)])
        .sum()
}

fn sub_word(words: &[u32], j: u32, which: usize) -> usize {
    Settings::of_words(words).subs_at() + layout::SUB_WORDS * j as usize + which
}
