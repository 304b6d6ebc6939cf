//! What a scheduler, or a count over a run, sees of the workers, the windows and the
//! subs.

use second::phase::{self, Side, Stage};
use second::{layout, Edition, Settings, STACK};

pub struct Workers<'a> {
    pub settings: &'a Settings,
    pub words: &'a [u32],
}

impl Workers<'_> {
    pub fn number(&self) -> u32 {
        self.settings.workers
    }

    pub fn is_idle(&self, worker: u32) -> bool {
        self.word(worker, layout::PHASE) == phase::IDLE
    }

    /// None for an idle worker.
    pub fn stage(&self, worker: u32) -> Option<(Side, Stage)> {
        phase::decode(self.word(worker, layout::PHASE))
    }

    pub fn seen_window(&self, worker: u32) -> u32 {
        self.word(worker, layout::SEEN_WINDOW)
    }

    pub fn index(&self, worker: u32) -> u32 {
        self.word(worker, layout::INDEX)
    }

    pub fn scan(&self, worker: u32) -> u32 {
        self.word(worker, layout::SCAN)
    }

    /// Its ninth word.
    pub fn failed_commits(&self, worker: u32) -> u32 {
        self.word(worker, layout::FAILED_COMMITS)
    }

    /// It stands before a commit, and its sub has another count (queue) or version
    /// (stack) than the one seen.
    pub fn is_to_fail(&self, worker: u32) -> bool {
        let Some((side, Stage::Commit)) = self.stage(worker) else {
            return false;
        };
        let which = match (self.settings.kind, side) {
            (STACK, _) => layout::VERSION,
            (_, Side::Put) => layout::ITEMS_PUT,
            (_, Side::Take) => layout::ITEMS_TAKEN,
        };
        self.sub_word(self.index(worker), which) != self.word(worker, layout::SEEN)
    }

    /// P or G: both stand in word 8.
    pub fn put_window(&self) -> u32 {
        self.words[layout::PUT_WINDOW]
    }

    /// T.
    pub fn take_window(&self) -> u32 {
        self.words[layout::TAKE_WINDOW]
    }

    /// G; a queue's windows only go up and never come back.
    pub fn stack_window(&self) -> Option<u32> {
        (self.settings.kind == STACK).then(|| self.put_window())
    }

    /// The highest row of a sub: items put, or held, both its first word.
    pub fn top_row(&self, sub: u32) -> u32 {
        self.sub_word(sub, layout::ITEMS_PUT)
    }

    /// How many items of a sub takes can come to before the window moves.
    pub fn in_reach(&self, sub: u32) -> u32 {
        let top = self.top_row(sub);
        if self.settings.kind == STACK {
            top.saturating_sub(self.put_window() - self.settings.depth)
        } else {
            let taken = self.sub_word(sub, layout::ITEMS_TAKEN);
            top.min(self.take_window()) - taken
        }
    }

    fn sub_word(&self, sub: u32, which: usize) -> u32 {
        self.words[self.settings.subs_at() + layout::SUB_WORDS * sub as usize + which]
    }

    fn word(&self, worker: u32, which: usize) -> u32 {
        let words = edition(self.words).worker_words();
        self.words[self.settings.workers_at() + words * worker as usize + which]
    }
}

/// Of a pool's words.
pub fn edition(words: &[u32]) -> Edition {
    Edition::of_words(words).expect("word 11 of a fit pool names it")
}

/// The ninth words of a pool that has them, worker by worker.
pub fn set_failed_commits(words: &mut [u32], mut word: impl FnMut() -> u32) {
    let settings = Settings::of_words(words);
    let edition = edition(words);
    let workers = &mut words[settings.workers_at()..settings.cells_at_in(edition)];
    for worker in workers.chunks_mut(edition.worker_words()) {
        worker[layout::FAILED_COMMITS] = word();
    }
}
