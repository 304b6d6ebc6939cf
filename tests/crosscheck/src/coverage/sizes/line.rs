//! A queue whose windows have sizes of their own, as a step finds it.

use crate::coverage::Seen;
use crate::make_up::live_windows;
use second::phase::{Side, Stage};
use second::{layout, Edition, Settings, Size};

pub struct Line<'a> {
    pub settings: Settings,
    pub before: &'a [u32],
    /// The worker's words before and after.
    pub worker: &'a [u32],
    pub after: &'a [u32],
    pub words_after: &'a [u32],
    pub number: u32,
    pub row: u32,
    pub stamp: u32,
    pub live: Vec<Size>,
    pub take_bottom: u32,
    stage: Option<(Side, Stage)>,
}

impl<'a> Line<'a> {
    pub fn of(seen: &Seen<'a>) -> Line<'a> {
        let settings = seen.settings;
        Line {
            settings,
            before: seen.before,
            worker: seen.worker,
            after: seen.worker_after,
            words_after: seen.after,
            number: seen.answer.number,
            row: seen.answer.row,
            stamp: seen.answer.stamp,
            live: live_windows::sizes(seen.before),
            take_bottom: live_windows::take_bottom(&settings, Edition::CURRENT, seen.before),
            stage: seen.stage(),
        }
    }

    pub fn is_at(&self, side: Side, stage: Stage) -> bool {
        self.stage == Some((side, stage))
    }

    pub fn is_at_stage(&self, stage: Stage) -> bool {
        self.stage.is_some_and(|(_, at)| at == stage)
    }

    /// Before the step.
    pub fn index(&self) -> u32 {
        self.worker[layout::INDEX]
    }

    pub fn seen_width(&self) -> u32 {
        self.worker[layout::SEEN_WIDTH]
    }

    pub fn seen_bottom(&self) -> u32 {
        self.worker[layout::SEEN_BOTTOM]
    }

    pub fn seen_top(&self) -> u32 {
        self.worker[layout::SEEN_WINDOW]
    }

    /// Of the window that the worker has seen; none where its depth is no depth.
    pub fn seen_size(&self) -> Option<Size> {
        let depth = self.seen_top().checked_sub(self.seen_bottom())?;
        let width = self.seen_width();
        Some(Size { width, depth }).filter(|size| size.within_limits(&self.settings))
    }

    pub fn own_size(&self) -> Size {
        Size::of_pool(&self.settings)
    }

    /// The last put row and the last taken row of a sub.
    pub fn sub(&self, j: u32) -> [u32; 2] {
        let at = self.settings.subs_at() + layout::SUB_WORDS * j as usize;
        [
            self.before[at + layout::ITEMS_PUT],
            self.before[at + layout::ITEMS_TAKEN],
        ]
    }

    /// Those of the sub at the index.
    pub fn last_put(&self) -> u32 {
        self.sub(self.index())[0]
    }

    pub fn last_taken(&self) -> u32 {
        self.sub(self.index())[1]
    }

    pub fn put_top(&self) -> u32 {
        self.before[layout::PUT_WINDOW]
    }

    pub fn next_size(&self) -> Size {
        let at = self.settings.sizes_at_in(Edition::CURRENT);
        Size {
            width: self.before[at + layout::NEXT_WIDTH],
            depth: self.before[at + layout::NEXT_DEPTH],
        }
    }

    /// Where a raised put window's top would be above the take window's bottom.
    pub fn reach(&self) -> u32 {
        let top = self.put_top().wrapping_add(self.next_size().depth);
        top.wrapping_sub(self.take_bottom)
    }

    pub fn put_size(&self) -> Size {
        self.live[self.live.len() - 1]
    }

    /// A put's shift that raised the put window.
    pub fn is_raised(&self) -> bool {
        self.is_at(Side::Put, Stage::Shift)
            && self.put_top() != self.words_after[layout::PUT_WINDOW]
    }

    /// A take's shift that dropped the take window.
    pub fn is_dropped(&self) -> bool {
        let take = layout::TAKE_WINDOW;
        self.is_at(Side::Take, Stage::Shift) && self.before[take] != self.words_after[take]
    }

    /// The last step of a confirm: whether its sum comes to 0.
    pub fn confirmed(&self) -> Option<bool> {
        let is_last = self.worker[layout::SCAN] + 1 == self.seen_width();
        let summed = self.last_put().max(self.seen_bottom());
        (self.is_at(Side::Take, Stage::Confirm) && is_last)
            .then(|| self.worker[layout::SUM] == summed)
    }

    /// A commit that failed, and where it hopped to.
    pub fn hop(&self) -> Option<u32> {
        let failed = self.is_at_stage(Stage::Commit) && self.number == second::MOVING;
        failed.then(|| self.after[layout::INDEX])
    }

    /// Whether some row is so, of those above a sub's last taken one and up to its last
    /// put one that hold nothing, by their sub and cell. A window's row is told by the
    /// window's size, and one of no live window by none.
    pub fn some_row_of_nothing(&self, is_so: impl Fn(Nothing) -> bool) -> bool {
        (0..self.settings.width).any(|j| self.rows_of_nothing(j).into_iter().any(&is_so))
    }

    fn rows_of_nothing(&self, j: u32) -> Vec<Nothing> {
        let [put, taken] = self.sub(j);
        let rows = self.settings.rows;
        let cells = self.settings.cells_at();
        let mut all = Vec::new();
        // So many rows of them have all cells there are.
        for row in (taken..put).take(2 * rows as usize).map(|below| below + 1) {
            let Some(why) = self.why_nothing(j, row) else {
                continue;
            };
            let cell = (j * rows + (row - 1) % rows) as usize;
            let cell = &self.before[cells + layout::CELL_WORDS * cell..];
            all.push(Nothing {
                why,
                would_count: cell[layout::CELL_VALUE] != second::SPACER
                    && cell[layout::CELL_STAMP] < self.stamp,
            });
        }
        all
    }

    fn why_nothing(&self, j: u32, row: u32) -> Option<Why> {
        if row <= self.take_bottom {
            return Some(Why::AtOrBelowBottom);
        }
        let mut top = self.take_bottom;
        for size in &self.live {
            top = top.wrapping_add(size.depth);
            if row <= top {
                return (j >= size.width).then_some(Why::OutsideWidth);
            }
        }
        Some(Why::AboveTop)
    }
}

/// A row that holds nothing between two last rows.
pub struct Nothing {
    pub why: Why,
    /// What is in its cell would count in the distance.
    pub would_count: bool,
}

#[derive(Clone, Copy, PartialEq, Eq)]
pub enum Why {
    AtOrBelowBottom,
    OutsideWidth,
    AboveTop,
}
