//! A worker's words, read and written as a whole. One that its edition has not is
//! read as 0, and nowhere written.

use super::layout;

#[derive(Clone, Copy, Debug, Default, PartialEq, Eq)]
pub(crate) struct Worker {
    pub phase: u32,
    pub value: u32,
    pub index: u32,
    pub seen_window: u32,
    pub extra: u32,
    pub scan: u32,
    pub seen: u32,
    pub sum: u32,
    pub failed_commits: u32,
    pub seen_bottom: u32,
    pub seen_width: u32,
}

impl Worker {
    /// "After a final answer the worker is idle, all its words zero but the
    /// index"; a begin starts from the same words. K5: the failed commits survive
    /// both.
    pub fn idle(self) -> Worker {
        Worker {
            index: self.index,
            failed_commits: self.failed_commits,
            ..Worker::default()
        }
    }

    pub fn from_words(words: &[u32]) -> Worker {
        let later = |which: usize| words.get(which).copied().unwrap_or(0);
        Worker {
            phase: words[layout::PHASE],
            value: words[layout::VALUE],
            index: words[layout::INDEX],
            seen_window: words[layout::SEEN_WINDOW],
            extra: words[layout::EXTRA],
            scan: words[layout::SCAN],
            seen: words[layout::SEEN],
            sum: words[layout::SUM],
            failed_commits: later(layout::FAILED_COMMITS),
            seen_bottom: later(layout::SEEN_BOTTOM),
            seen_width: later(layout::SEEN_WIDTH),
        }
    }

    pub fn to_words(self, words: &mut [u32]) {
        words[layout::PHASE] = self.phase;
        words[layout::VALUE] = self.value;
        words[layout::INDEX] = self.index;
        words[layout::SEEN_WINDOW] = self.seen_window;
        words[layout::EXTRA] = self.extra;
        words[layout::SCAN] = self.scan;
        words[layout::SEEN] = self.seen;
        words[layout::SUM] = self.sum;
        for (which, word) in [
            (layout::FAILED_COMMITS, self.failed_commits),
            (layout::SEEN_BOTTOM, self.seen_bottom),
            (layout::SEEN_WIDTH, self.seen_width),
        ] {
            if let Some(later) = words.get_mut(which) {
                *later = word;
            }
        }
    }
}
