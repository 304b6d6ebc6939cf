//! The corners of a sub that a distance goes through (K2), in a queue within one live
//! window: where its segments begin and end, and an item there by which a cell more or less would be seen; a
//! spacer would not show it.

use crate::take::Sub;

pub struct Corner {
    pub name: &'static str,
    pub is_so: fn(&Sub) -> bool,
    /// 2 where it takes a sub beside that of the taken cell, which does not count
    /// itself.
    pub least_width: usize,
    /// Whether a run from make comes to it.
    pub from_make: bool,
}

const fn corner(name: &'static str, is_so: fn(&Sub) -> bool) -> Corner {
    Corner {
        name,
        is_so,
        least_width: 1,
        from_make: true,
    }
}

const fn beside(name: &'static str, is_so: fn(&Sub) -> bool) -> Corner {
    Corner {
        least_width: 2,
        ..corner(name, is_so)
    }
}

const fn of_images(name: &'static str, is_so: fn(&Sub) -> bool) -> Corner {
    Corner {
        from_make: false,
        ..corner(name, is_so)
    }
}

pub const OF_QUEUES: [Corner; 29] = [
    beside("an empty sub", |sub| sub.held == 0),
    corner("one run short of the last cell", |sub| {
        sub.has_one_run() && !sub.is_up_to_last()
    }),
    corner("one run up to the last cell", |sub| {
        sub.has_one_run() && sub.is_up_to_last() && !sub.is_full()
    }),
    corner("two runs", |sub| sub.has_two_runs()),
    corner("two runs, one cell in the first", |sub| {
        sub.has_two_runs() && sub.segments[0].len() == 1
    }),
    corner("two runs, one cell in the second", |sub| {
        sub.has_two_runs() && sub.segments[1].len() == 1
    }),
    corner("one run, and R cells in all windows", |sub| {
        sub.is_full() && sub.has_one_run()
    }),
    corner("two runs, and R cells in all windows", |sub| {
        sub.is_full() && sub.has_two_runs()
    }),
    corner("from a multiple of R above 0", |sub| {
        sub.held > 0 && sub.below > 0 && sub.below.is_multiple_of(sub.rows)
    }),
    of_images("two runs, put from 2^32 - R on", |sub| {
        sub.has_two_runs() && sub.below + sub.held > u32::MAX - sub.rows
    }),
    beside("empty, its next cell would count", |sub| {
        sub.held == 0 && sub.next_would_count(0)
    }),
    corner("one run, the cell before would count", |sub| {
        sub.has_one_run() && sub.previous_would_count()
    }),
    corner("one run, the cell after would count", |sub| {
        sub.has_one_run() && !sub.is_up_to_last() && sub.next_would_count(0)
    }),
    corner("up to the last, the first would count", |sub| {
        sub.has_one_run() && sub.is_up_to_last() && !sub.is_full() && sub.next_would_count(1)
    }),
    corner("from the first, the last would count", |sub| {
        sub.held > 0
            && sub.segments[0].start == 0
            && !sub.is_full()
            && sub.last_of_all_would_count()
    }),
    beside("up to the last, the next sub's would count", |sub| {
        sub.is_up_to_last() && sub.next_would_count(0)
    }),
    corner("two runs, the cell before would count", |sub| {
        sub.has_two_runs() && !sub.is_full() && sub.previous_would_count()
    }),
    corner("two runs, the cell after would count", |sub| {
        sub.has_two_runs() && !sub.is_full() && sub.next_would_count(1)
    }),
    corner("the cell after counts in the next window", |sub| {
        sub.has_one_run() && sub.next_counts_twice(0)
    }),
    of_images("two runs, the cell after counts in the next", |sub| {
        sub.has_two_runs() && sub.next_counts_twice(1)
    }),
    corner("the cell before counts in the last window", |sub| {
        sub.held > 0 && sub.previous_counts_twice()
    }),
    beside("one run, its first cell counts", |sub| {
        sub.has_one_run() && sub.first_counts(0)
    }),
    corner("one run, its last cell counts", |sub| {
        sub.has_one_run() && sub.last_counts(0)
    }),
    beside("R cells in all, a run's first cell counts", |sub| {
        sub.is_full() && sub.has_one_run() && sub.first_counts(0)
    }),
    corner("R cells in all, a run's last cell counts", |sub| {
        sub.is_full() && sub.has_one_run() && sub.last_counts(0)
    }),
    beside("two runs, the first's first cell counts", |sub| {
        sub.has_two_runs() && sub.first_counts(0)
    }),
    corner("two runs, the first's last cell counts", |sub| {
        sub.has_two_runs() && sub.last_counts(0)
    }),
    corner("two runs, the second's first cell counts", |sub| {
        sub.has_two_runs() && sub.first_counts(1)
    }),
    corner("two runs, the second's last cell counts", |sub| {
        sub.has_two_runs() && sub.last_counts(1)
    }),
];

/// A stack's held cells are one run from the first cell on.
pub const OF_STACKS: [Corner; 8] = [
    beside("an empty sub", |sub| sub.held == 0),
    corner("a full sub", |sub| sub.is_full()),
    beside("empty, its first cell would count", |sub| {
        sub.held == 0 && sub.next_would_count(0)
    }),
    corner("the cell after its run would count", |sub| {
        sub.held > 0 && !sub.is_full() && sub.next_would_count(0)
    }),
    beside("full, the next sub's first cell would count", |sub| {
        sub.is_full() && sub.next_would_count(0)
    }),
    corner("its first cell counts", |sub| {
        sub.held > 0 && sub.first_counts(0)
    }),
    beside("its last cell counts", |sub| {
        sub.held > 0 && sub.last_counts(0)
    }),
    beside("full, its last cell counts", |sub| {
        sub.is_full() && sub.last_counts(0)
    }),
];
