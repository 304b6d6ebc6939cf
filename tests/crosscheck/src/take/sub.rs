//! A sub just before a take, in a queue within one live window: its segments, and which
//! items about them count in the distance.

use crate::make_up::live_windows;
use second::{layout, Edition, Settings, QUEUE, SPACER};
use std::ops::Range;

pub struct Sub<'a> {
    pub rows: u32,
    /// Rows below the held ones: of a queue the last taken one or, if it is higher, the
    /// window's bottom; none of a stack.
    pub below: u32,
    /// In this window.
    pub held: u32,
    pub segments: [Range<u32>; 2],
    /// The segments of all windows.
    in_all: Vec<Range<u32>>,
    /// The words of its cells, and of those of the subs after it.
    cells: &'a [u32],
    is_queue: bool,
    taken_stamp: u32,
}

/// Those of a fit pool.
pub struct PoolWords<'a> {
    pub words: &'a [u32],
    pub edition: Edition,
}

impl PoolWords<'_> {
    /// Of sub j: as `below` of each of the windows that it lies in.
    pub fn rows_below(&self, j: u32) -> Vec<u32> {
        let settings = Settings::of_words(self.words);
        if settings.kind != QUEUE {
            return vec![0];
        }
        let sub = &self.words[settings.subs_at() + layout::SUB_WORDS * j as usize..];
        let taken = sub[layout::ITEMS_TAKEN];
        if !self.edition.has_sizes() {
            return vec![taken];
        }
        let mut bottom = live_windows::take_bottom(&settings, self.edition, self.words);
        let mut below = Vec::new();
        for size in live_windows::sizes(self.words) {
            if j < size.width {
                below.push(taken.max(bottom));
            }
            bottom = bottom.wrapping_add(size.depth);
        }
        below
    }
}

/// What a distance goes through of a sub.
pub struct Counted {
    pub below: u32,
    pub segments: [Range<u32>; 2],
    pub in_all: Vec<Range<u32>>,
}

impl<'a> Sub<'a> {
    /// Sub j of a fit pool, for a take of this stamp.
    pub fn of(pool: &PoolWords<'a>, j: u32, counted: Counted, taken_stamp: u32) -> Sub<'a> {
        let settings = Settings::of_words(pool.words);
        let rows = settings.rows;
        let all = settings.cells_in(pool.edition);
        let at = all.start + layout::CELL_WORDS * (j * rows) as usize;
        let Counted {
            below,
            segments,
            in_all,
        } = counted;
        Sub {
            rows,
            below,
            held: segments.iter().map(|run| run.len() as u32).sum(),
            segments,
            in_all,
            cells: &pool.words[at..all.end],
            is_queue: settings.kind == QUEUE,
            taken_stamp,
        }
    }

    pub fn held_cells(&self) -> impl Iterator<Item = u32> + '_ {
        self.segments.iter().cloned().flatten()
    }

    /// In all windows of a queue.
    pub fn is_full(&self) -> bool {
        let held: usize = self.in_all.iter().map(Range::len).sum();
        held == self.rows as usize
    }

    /// In any window of a queue.
    fn is_held(&self, cell: u32) -> bool {
        self.in_all.iter().any(|run| run.contains(&cell))
    }

    pub fn has_one_run(&self) -> bool {
        self.held > 0 && self.segments[1].is_empty()
    }

    pub fn has_two_runs(&self) -> bool {
        !self.segments[1].is_empty()
    }

    /// In one run or in two.
    pub fn is_up_to_last(&self) -> bool {
        self.held > 0 && self.segments[0].end == self.rows
    }

    /// Cell R is the first one of the next sub; beyond the last sub there is none.
    fn cell(&self, cell: u32) -> Option<[u32; 2]> {
        let (cells, _) = self.cells.as_chunks::<{ layout::CELL_WORDS }>();
        cells.get(cell as usize).copied()
    }

    /// Of a cell that there is, held or not.
    pub fn value(&self, cell: u32) -> u32 {
        self.cell(cell).expect("a cell of the pool")[layout::CELL_VALUE]
    }

    /// Of a cell that there is, held or not.
    pub fn stamp(&self, cell: u32) -> u32 {
        self.cell(cell).expect("a cell of the pool")[layout::CELL_STAMP]
    }

    pub fn is_spacer(&self, cell: u32) -> bool {
        self.cell(cell)
            .is_some_and(|words| words[layout::CELL_VALUE] == SPACER)
    }

    /// Whether the take passes over what is in this cell, if it is held.
    pub fn is_ahead(&self, cell: u32) -> bool {
        self.cell(cell)
            .is_some_and(|words| self.is_before_taken(words[layout::CELL_STAMP]))
    }

    /// The same if its value were its stamp.
    pub fn is_ahead_by_value(&self, cell: u32) -> bool {
        self.cell(cell)
            .is_some_and(|words| self.is_before_taken(words[layout::CELL_VALUE]))
    }

    fn is_before_taken(&self, stamp: u32) -> bool {
        match self.is_queue {
            true => stamp < self.taken_stamp,
            false => stamp > self.taken_stamp,
        }
    }

    /// Whether a distance that comes to this cell, held or not, grows by it.
    pub fn counts(&self, cell: u32) -> bool {
        self.is_ahead(cell) && !self.is_spacer(cell)
    }

    /// Whether a distance that comes to this cell by mistake grows by it.
    fn would_count(&self, cell: u32) -> bool {
        self.counts(cell) && !self.is_held(cell)
    }

    /// The cells right before and after the held ones, unless they are held too.
    pub fn beside_held(&self) -> impl Iterator<Item = u32> + '_ {
        let start = self.segments[0].start;
        let cells = [start + self.rows - 1, start + self.held].map(|cell| cell % self.rows);
        cells.into_iter().filter(|cell| !self.is_held(*cell))
    }

    /// The first cell of a segment counts.
    pub fn first_counts(&self, segment: usize) -> bool {
        self.counts(self.segments[segment].start)
    }

    /// The last cell of a segment counts.
    pub fn last_counts(&self, segment: usize) -> bool {
        self.counts(self.segments[segment].end - 1)
    }

    /// The cell that a segment would have more if it were longer by one.
    pub fn next_would_count(&self, segment: usize) -> bool {
        self.would_count(self.segments[segment].end)
    }

    /// The same of a cell that is held in another window, and counts there.
    pub fn next_counts_twice(&self, segment: usize) -> bool {
        let next = self.segments[segment].end;
        self.is_held(next) && self.counts(next)
    }

    /// The cell that the first segment would have more if it began one earlier.
    pub fn previous_would_count(&self) -> bool {
        let start = self.segments[0].start;
        start > 0 && self.would_count(start - 1)
    }

    /// The same of a cell that is held in another window, and counts there.
    pub fn previous_counts_twice(&self) -> bool {
        let start = self.segments[0].start;
        start > 0 && self.is_held(start - 1) && self.counts(start - 1)
    }

    /// The sub's last cell, which comes round before the first one.
    pub fn last_of_all_would_count(&self) -> bool {
        self.would_count(self.rows - 1)
    }
}
