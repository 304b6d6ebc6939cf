//! The corners of a worker's ninth word (K5): where it counts, where it comes round,
//! and what it survives.

use super::Seen;
use second::phase::{Side, Stage};
use second::{layout, EMPTY, FULL, MOVING, PUT, TAKEN, UNFIT};

pub struct Corner {
    pub name: &'static str,
    pub is_so: fn(&Seen) -> bool,
    /// Some are of stacks alone.
    pub of_queues: bool,
    /// Whether a run from make comes to it. Its step count ends before a ninth word
    /// comes round, and no commit of it is refused.
    pub from_make: bool,
}

const fn corner(name: &'static str, is_so: fn(&Seen) -> bool) -> Corner {
    Corner {
        name,
        is_so,
        of_queues: true,
        from_make: true,
    }
}

const fn of_stacks(name: &'static str, is_so: fn(&Seen) -> bool) -> Corner {
    Corner {
        of_queues: false,
        ..corner(name, is_so)
    }
}

const fn of_images(name: &'static str, is_so: fn(&Seen) -> bool) -> Corner {
    Corner {
        from_make: false,
        ..corner(name, is_so)
    }
}

/// "Counted" is a worker whose ninth word is not 0 before the call.
pub const CORNERS: [Corner; 20] = [
    corner("a put's commit fails", |seen| {
        seen.failed_commit() == Some(Side::Put)
    }),
    corner("a take's commit fails", |seen| {
        seen.failed_commit() == Some(Side::Take)
    }),
    corner("a commit fails, counted", |seen| {
        seen.failed_commit().is_some() && is_counted(seen)
    }),
    corner("a commit fails beside a counted worker", |seen| {
        seen.failed_commit().is_some() && is_other_counted(seen)
    }),
    of_images("a put's commit fails and comes round to 0", |seen| {
        seen.failed_commit() == Some(Side::Put) && failed_commits(seen) == u32::MAX
    }),
    of_images("a take's commit fails and comes round to 0", |seen| {
        seen.failed_commit() == Some(Side::Take) && failed_commits(seen) == u32::MAX
    }),
    corner("a begin put, counted", |seen| {
        begins(seen, Side::Put) && is_counted(seen)
    }),
    corner("a begin take, counted", |seen| {
        begins(seen, Side::Take) && is_counted(seen)
    }),
    corner("a put lands, counted", |seen| {
        seen.answer.number == PUT && is_counted(seen)
    }),
    corner("a take takes, counted", |seen| {
        seen.answer.number == TAKEN && is_counted(seen)
    }),
    corner("an empty, counted", |seen| {
        seen.answer.number == EMPTY && is_counted(seen)
    }),
    corner("a full, counted", |seen| {
        seen.answer.number == FULL && is_counted(seen)
    }),
    of_stacks("a put's check restarts, counted", |seen| {
        restarts(seen, Side::Put, Stage::Check) && is_counted(seen)
    }),
    of_stacks("a take's check restarts, counted", |seen| {
        restarts(seen, Side::Take, Stage::Check) && is_counted(seen)
    }),
    corner("a put's shift restarts, counted", |seen| {
        restarts(seen, Side::Put, Stage::Shift) && is_counted(seen)
    }),
    corner("a take's shift restarts, counted", |seen| {
        restarts(seen, Side::Take, Stage::Shift) && is_counted(seen)
    }),
    of_stacks("a put's confirm restarts, counted", |seen| {
        restarts(seen, Side::Put, Stage::Confirm) && is_counted(seen)
    }),
    corner("a take's confirm restarts, counted", |seen| {
        restarts(seen, Side::Take, Stage::Confirm) && is_counted(seen)
    }),
    of_images("23 for no free cell, counted", |seen| {
        is_refused(seen, Side::Put) && is_counted(seen)
    }),
    of_images("23 for no item, counted", |seen| {
        is_refused(seen, Side::Take) && is_counted(seen)
    }),
];

fn failed_commits(seen: &Seen) -> u32 {
    seen.worker[layout::FAILED_COMMITS]
}

fn is_counted(seen: &Seen) -> bool {
    failed_commits(seen) != 0
}

fn is_other_counted(seen: &Seen) -> bool {
    let workers = &seen.before[seen.settings.workers_at()..seen.settings.cells_at()];
    let all = workers.chunks(layout::WORKER_WORDS);
    let counted = all.filter(|worker| worker[layout::FAILED_COMMITS] != 0);
    counted.count() > usize::from(is_counted(seen))
}

fn begins(seen: &Seen, side: Side) -> bool {
    seen.stage().is_none() && seen.phase_after == side.phase(Stage::Window)
}

/// A step at this stage, back to the window phase.
fn restarts(seen: &Seen, side: Side, stage: Stage) -> bool {
    seen.stage() == Some((side, stage))
        && seen.answer.number == MOVING
        && seen.phase_after == side.phase(Stage::Window)
}

/// By its commit: the pool is fit.
fn is_refused(seen: &Seen, side: Side) -> bool {
    seen.answer.number == UNFIT && seen.stage() == Some((side, Stage::Commit))
}
