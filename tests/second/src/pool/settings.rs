//! Paper 01, The pool's words: settings, their limits, the needed words.

use super::edition::Edition;
use super::layout;
use std::ops::Range;

/// The paper's line.
pub const QUEUE: u32 = 0;
/// The paper's pile.
pub const STACK: u32 = 1;

#[derive(Clone, Copy, Debug, PartialEq, Eq)]
pub struct Settings {
    pub kind: u32,
    pub width: u32,
    pub depth: u32,
    pub shift: u32,
    pub rows: u32,
    pub workers: u32,
    /// How far a commit that failed moves the index on; 0 stands for 1.
    pub stride: u32,
}

impl Settings {
    /// What stands in the first words, within limits or not.
    #[inline]
    pub fn of_words(words: &[u32]) -> Settings {
        Settings {
            kind: words[layout::KIND],
            width: words[layout::WIDTH],
            depth: words[layout::DEPTH],
            shift: words[layout::SHIFT],
            rows: words[layout::ROWS],
            workers: words[layout::WORKERS],
            stride: words[layout::STRIDE],
        }
    }

    /// In the current edition.
    pub fn within_limits(&self) -> bool {
        self.within_limits_in(Edition::CURRENT)
    }

    #[inline]
    pub fn within_limits_in(&self, edition: Edition) -> bool {
        let known = self.kind == QUEUE || self.kind == STACK;
        known
            && (1..=16).contains(&self.width)
            && (1..=64).contains(&self.depth)
            && (1..=self.depth).contains(&self.shift)
            && (2 * self.depth..=1024).contains(&self.rows)
            && (1..=32).contains(&self.workers)
            && self.width * self.rows <= 4096
            && self.stride < self.width
            && (self.kind == STACK || self.suits_a_queue(edition))
    }

    /// A queue has shift = depth, and its rows are a multiple of the depth. K8: "R
    /// need no longer be a multiple of d".
    #[inline]
    fn suits_a_queue(&self, edition: Edition) -> bool {
        self.shift == self.depth && (edition.has_sizes() || self.rows_are_whole_windows())
    }

    /// Of the pool's depth.
    #[inline]
    pub fn rows_are_whole_windows(&self) -> bool {
        self.rows.is_multiple_of(self.depth)
    }

    /// Of settings within limits, in the current edition.
    pub fn needed_words(&self) -> usize {
        self.needed_words_in(Edition::CURRENT)
    }

    /// 12 + 2w + 8n + 2wR in edition 0, 12 + 2w + 9n + 2wR in edition 1, and
    /// 48 + 2w + 11n + 2wR in edition 2.
    pub fn needed_words_in(&self, edition: Edition) -> usize {
        self.sizes_at_in(edition) + edition.size_words()
    }

    pub fn subs_at(&self) -> usize {
        layout::HEADER_WORDS
    }

    pub fn workers_at(&self) -> usize {
        self.subs_at() + layout::SUB_WORDS * self.width as usize
    }

    pub fn cells_at(&self) -> usize {
        self.cells_at_in(Edition::CURRENT)
    }

    pub fn cells_at_in(&self, edition: Edition) -> usize {
        self.workers_at() + edition.worker_words() * self.workers as usize
    }

    /// Those of all subs, in the current edition.
    pub fn cells(&self) -> Range<usize> {
        self.cells_in(Edition::CURRENT)
    }

    pub fn cells_in(&self, edition: Edition) -> Range<usize> {
        self.cells_at_in(edition)..self.sizes_at_in(edition)
    }

    /// Where the cells end.
    pub fn sizes_at_in(&self, edition: Edition) -> usize {
        let cells = self.width as usize * self.rows as usize;
        self.cells_at_in(edition) + layout::CELL_WORDS * cells
    }
}
