//! The lent words of a fit pool, under the paper's names.

use super::edition::Edition;
use super::layout;
use super::settings::{Settings, QUEUE};
use super::worker::Worker;
use std::ops::Range;

pub(crate) struct Pool<'a> {
    pub words: &'a mut [u32],
    pub settings: Settings,
    pub edition: Edition,
}

impl Pool<'_> {
    pub fn is_queue(&self) -> bool {
        self.settings.kind == QUEUE
    }

    /// The word of sub j called `which` (layout::ITEMS_PUT and so on).
    pub fn sub(&self, j: u32, which: usize) -> u32 {
        self.words[self.sub_word(j, which)]
    }

    pub fn set_sub(&mut self, j: u32, which: usize, word: u32) {
        let at = self.sub_word(j, which);
        self.words[at] = word;
    }

    pub fn worker(&self, number: u32) -> Worker {
        Worker::from_words(&self.words[self.worker_words(number)])
    }

    pub fn set_worker(&mut self, number: u32, worker: Worker) {
        let at = self.worker_words(number);
        worker.to_words(&mut self.words[at]);
    }

    /// The word of row `row` of sub j called `which` (value or stamp).
    pub fn cell(&self, j: u32, row: u32, which: usize) -> u32 {
        self.words[self.cell_word(j, row, which)]
    }

    pub fn set_cell(&mut self, j: u32, row: u32, which: usize, word: u32) {
        let at = self.cell_word(j, row, which);
        self.words[at] = word;
    }

    fn sub_word(&self, j: u32, which: usize) -> usize {
        self.settings.subs_at() + layout::SUB_WORDS * j as usize + which
    }

    fn worker_words(&self, number: u32) -> Range<usize> {
        let size = self.edition.worker_words();
        let at = self.settings.workers_at() + size * number as usize;
        at..at + size
    }

    /// The cells of all subs.
    pub fn cells(&self) -> Range<usize> {
        self.settings.cells_in(self.edition)
    }

    /// Row r of sub j is cell j x R + (r - 1) mod R. Reading: r - 1 is modulo
    /// 2^32 like every difference of a step, then modulo R. It matters for row
    /// 0 alone, the row of a put on a queue whose items put are 2^32 - 1.
    fn cell_word(&self, j: u32, row: u32, which: usize) -> usize {
        let in_sub = row.wrapping_sub(1) % self.settings.rows;
        let cell = (j * self.settings.rows + in_sub) as usize;
        self.cells().start + layout::CELL_WORDS * cell + which
    }
}
