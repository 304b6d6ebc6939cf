//! The rows that hold an item.

use super::layout;
use super::view::Pool;

/// So many rows in a row, just above row `below`.
#[derive(Clone, Copy, Debug, PartialEq, Eq)]
pub(crate) struct Held {
    pub below: u32,
    pub rows: u32,
}

impl Pool<'_> {
    /// Those of sub j. Stack: rows 1 to held. Queue: the rows above the last taken
    /// one, up to the last put one; and with sizes, K8: "A row of a sub at or below
    /// the take window's bottom, outside its window's width, or above the put
    /// window's top holds nothing", so that each live window has its own.
    pub fn held_rows(&self, j: u32) -> Vec<Held> {
        if !self.is_queue() {
            let rows = self.sub(j, layout::ITEMS_HELD);
            return vec![Held { below: 0, rows }];
        }
        let put = self.sub(j, layout::ITEMS_PUT);
        let taken = self.sub(j, layout::ITEMS_TAKEN);
        let between = |below: u32, last: u32| Held {
            below,
            rows: last.saturating_sub(below),
        };
        if !self.has_sizes() {
            return vec![between(taken, put)];
        }
        let windows = self.live_windows().into_iter();
        windows
            .filter(|window| j < window.size.width)
            .map(|window| between(taken.max(window.bottom), put.min(window.top)))
            .collect()
    }

    /// The items in sub j; fit keeps them at 0 to R.
    pub fn items(&self, j: u32) -> u32 {
        self.held_rows(j).iter().map(|held| held.rows).sum()
    }

    /// The items in all subs.
    pub fn held(&self) -> u32 {
        (0..self.settings.width).map(|j| self.items(j)).sum()
    }
}
