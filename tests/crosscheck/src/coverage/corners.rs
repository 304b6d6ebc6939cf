//! Corners that only images reach: where a sum or a difference of a step
//! passes 2^32 or 0, and where two readings of the paper would part.

use super::Seen;
use second::phase::{Side, Stage};
use second::{layout, PUT, QUEUE, TAKEN};

pub type Corner = (&'static str, fn(&Seen) -> bool);

pub const CORNERS: [Corner; 9] = [
    ("a put into row 0", |seen| {
        seen.answer.number == PUT && seen.answer.row == 0
    }),
    ("a put with stamp 0", |seen| {
        seen.answer.number == PUT && seen.answer.stamp == 0
    }),
    ("a queue take's extra wraps to 0", |seen| {
        is_at(seen, QUEUE, Side::Take, Stage::Read)
            && seen.worker[layout::EXTRA] == u32::MAX
            && bare(seen)
    }),
    ("a stack take's seen window below d", |seen| {
        !is_queue(seen)
            && seen.stage() == Some((Side::Take, Stage::Read))
            && seen.worker[layout::SEEN_WINDOW] < seen.settings.depth
    }),
    ("P wraps", |seen| {
        is_at(seen, QUEUE, Side::Put, Stage::Shift)
            && seen.after[layout::PUT_WINDOW] < seen.before[layout::PUT_WINDOW]
    }),
    ("G wraps", |seen| {
        !is_queue(seen)
            && seen.stage() == Some((Side::Put, Stage::Shift))
            && seen.after[layout::WINDOW] < seen.before[layout::WINDOW]
    }),
    ("the window's version wraps", |seen| {
        !is_queue(seen) && moved(seen) && seen.after[layout::WINDOW_VERSION] == 0
    }),
    ("confirm passes below 0", |seen| {
        matches!(seen.stage(), Some((_, Stage::Confirm)))
            && seen.worker[layout::SUM] < sub(seen)[usize::from(!is_queue(seen))]
    }),
    ("a taken stamp stands in two cells", |seen| {
        seen.answer.number == TAKEN && in_two_cells(seen)
    }),
];

fn is_queue(seen: &Seen) -> bool {
    seen.settings.kind == QUEUE
}

fn is_at(seen: &Seen, kind: u32, side: Side, at: Stage) -> bool {
    seen.settings.kind == kind && seen.stage() == Some((side, at))
}

fn moved(seen: &Seen) -> bool {
    let windows = layout::PUT_WINDOW..layout::TAKE_WINDOW + 1;
    seen.before[windows.clone()] != seen.after[windows]
}

/// The two words of the sub at the worker's index.
fn sub<'a>(seen: &Seen<'a>) -> &'a [u32] {
    let at = seen.settings.subs_at() + layout::SUB_WORDS * seen.worker[layout::INDEX] as usize;
    &seen.before[at..at + layout::SUB_WORDS]
}

fn bare(seen: &Seen) -> bool {
    let (put, taken) = (sub(seen)[layout::ITEMS_PUT], sub(seen)[layout::ITEMS_TAKEN]);
    put == taken && taken < seen.worker[layout::SEEN_WINDOW]
}

fn in_two_cells(seen: &Seen) -> bool {
    let cells = &seen.before[seen.settings.cells()];
    let stamps = cells
        .iter()
        .skip(layout::CELL_STAMP)
        .step_by(layout::CELL_WORDS);
    stamps.filter(|stamp| **stamp == seen.answer.stamp).count() > 1
}
