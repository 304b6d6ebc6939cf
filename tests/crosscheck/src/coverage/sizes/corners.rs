//! The corners of a queue's step beside windows of several sizes (K8).

use super::line::{Line, Why};
use second::phase::{Side, Stage};
use second::{layout, EMPTY, FULL, MOVING, PUT, TAKEN, UNFIT};

pub struct Corner {
    pub name: &'static str,
    pub is_so: fn(&Line) -> bool,
    /// Whether a run from make comes to it.
    pub from_make: bool,
}

const fn corner(name: &'static str, is_so: fn(&Line) -> bool) -> Corner {
    Corner {
        name,
        is_so,
        from_make: true,
    }
}

const fn of_images(name: &'static str, is_so: fn(&Line) -> bool) -> Corner {
    Corner {
        from_make: false,
        ..corner(name, is_so)
    }
}

pub const CORNERS: [Corner; 61] = [
    corner("a put whose index lies beyond the window", |line| {
        line.is_at(Side::Put, Stage::Window) && line.index() >= line.after[layout::SEEN_WIDTH]
    }),
    corner("a take whose index lies beyond the window", |line| {
        line.is_at(Side::Take, Stage::Window) && line.index() >= line.after[layout::SEEN_WIDTH]
    }),
    corner("an index beyond comes to another than 0", |line| {
        line.is_at_stage(Stage::Window)
            && line.index() != line.after[layout::INDEX]
            && line.after[layout::INDEX] > 0
    }),
    corner("a miss comes round below the pool's w", |line| {
        line.is_at_stage(Stage::Read)
            && is_narrow(line)
            && line.index() + 1 == line.seen_width()
            && line.after[layout::INDEX] == 0
    }),
    corner("a narrow put's pass ends", |line| {
        line.is_at(Side::Put, Stage::Read) && is_narrow(line) && ends_pass(line)
    }),
    corner("a narrow take's pass ends", |line| {
        line.is_at(Side::Take, Stage::Read) && is_narrow(line) && ends_pass(line)
    }),
    corner("a take's read sums a bottom", |line| {
        line.is_at(Side::Take, Stage::Read) && line.last_put() < line.seen_bottom()
    }),
    of_images("a take's read passes 2^32", |line| {
        line.is_at(Side::Take, Stage::Read) && line.after[layout::SUM] < line.worker[layout::SUM]
    }),
    of_images("a take's read passes 2^32 by a bottom", |line| {
        line.is_at(Side::Take, Stage::Read)
            && line.last_put() < line.seen_bottom()
            && line.after[layout::SUM] < line.worker[layout::SUM]
    }),
    corner("a confirm subtracts a bottom", |line| {
        line.is_at(Side::Take, Stage::Confirm) && line.last_put() < line.seen_bottom()
    }),
    of_images("a confirm passes below 0 by a bottom", |line| {
        line.is_at(Side::Take, Stage::Confirm)
            && line.last_put() < line.seen_bottom()
            && line.after[layout::SUM] > line.worker[layout::SUM]
    }),
    corner("a put above the bottom", |line| {
        line.number == PUT && line.last_put() < line.seen_bottom()
    }),
    corner("a put above a last put row at the bottom", |line| {
        line.number == PUT && line.last_put() == line.seen_bottom() && line.seen_bottom() > 0
    }),
    corner("a put above a last put row above the bottom", |line| {
        line.number == PUT && line.last_put() > line.seen_bottom() && line.seen_bottom() > 0
    }),
    corner("a take above the bottom", |line| {
        line.number == TAKEN && line.last_taken() < line.seen_bottom()
    }),
    corner("a take above a last taken row at the bottom", |line| {
        line.number == TAKEN && line.last_taken() == line.seen_bottom() && line.seen_bottom() > 0
    }),
    corner("a take above a last taken row above it", |line| {
        line.number == TAKEN && line.last_taken() > line.seen_bottom() && line.seen_bottom() > 0
    }),
    corner("a put's hop beyond the seen width", |line| {
        line.is_at(Side::Put, Stage::Commit)
            && line.hop().is_some_and(|index| index >= line.seen_width())
    }),
    corner("a take's hop beyond the seen width", |line| {
        line.is_at(Side::Take, Stage::Commit)
            && line.hop().is_some_and(|index| index >= line.seen_width())
    }),
    corner("a hop within it, modulo the pool's w alone", |line| {
        let stride = line.settings.stride.max(1);
        line.hop().is_some_and(|index| {
            index < line.seen_width() && index != (line.index() + stride) % line.seen_width()
        })
    }),
    of_images("no free cell above the take window's bottom", |line| {
        is_refused(line, Side::Put) && line.last_taken() < line.take_bottom
    }),
    of_images("no free cell above the last taken row", |line| {
        is_refused(line, Side::Put) && line.last_taken() > line.take_bottom
    }),
    of_images("no item, the bottom above the last put row", |line| {
        is_refused(line, Side::Take) && line.seen_bottom() >= line.last_put()
    }),
    of_images("no item above the last taken row", |line| {
        is_refused(line, Side::Take) && line.last_taken() >= line.seen_bottom()
    }),
    corner("a put into row R above the bottom", |line| {
        line.number == PUT
            && line.last_taken() <= line.take_bottom
            && line.row.checked_sub(line.take_bottom) == Some(line.settings.rows)
    }),
    of_images("a put into row R above the last taken one", |line| {
        line.number == PUT
            && line.last_taken() > line.take_bottom
            && line.row.checked_sub(line.last_taken()) == Some(line.settings.rows)
    }),
    of_images("a put at or below the take window's bottom", |line| {
        line.number == PUT && line.row <= line.take_bottom && line.row > 0
    }),
    of_images("a put into row 2^32 - 1", |line| {
        line.number == PUT && line.row == u32::MAX
    }),
    of_images("a put comes round to row 0", |line| {
        line.number == PUT && line.row == 0
    }),
    of_images("a take of row 2^32 - 1", |line| {
        line.number == TAKEN && line.row == u32::MAX
    }),
    of_images("no item above row 2^32 - 1", |line| {
        is_refused(line, Side::Take) && line.last_taken() == u32::MAX
    }),
    of_images("a take at or below the take window's bottom", |line| {
        line.number == TAKEN && line.row <= line.take_bottom
    }),
    of_images("a take above the put window's top", |line| {
        line.number == TAKEN && line.row > line.put_top()
    }),
    corner("at its window's bound, above the pool's", |line| {
        is_at_bound(line, |own, pools| own > pools)
    }),
    corner("at its window's bound, below the pool's", |line| {
        is_at_bound(line, |own, pools| own < pools)
    }),
    corner("old cells at or below the bottom would count", |line| {
        would_count(line, Why::AtOrBelowBottom)
    }),
    corner("old cells outside a width would count", |line| {
        would_count(line, Why::OutsideWidth)
    }),
    of_images("cells above the put window would count", |line| {
        would_count(line, Why::AboveTop)
    }),
    corner("raised to a narrower window", |line| {
        line.is_raised() && line.next_size().width < line.put_size().width
    }),
    corner("raised to a wider window", |line| {
        line.is_raised() && line.next_size().width > line.put_size().width
    }),
    corner("raised to a shallower window", |line| {
        line.is_raised() && line.next_size().depth < line.put_size().depth
    }),
    corner("raised to a deeper window", |line| {
        line.is_raised() && line.next_size().depth > line.put_size().depth
    }),
    corner("raised to another size than the pool's", |line| {
        line.is_raised() && line.next_size() != line.own_size()
    }),
    corner("raised to the 16th live window", |line| {
        line.is_raised() && line.live.len() == 15
    }),
    corner("full with 16 live windows, and room", |line| {
        line.number == FULL && line.live.len() == 16 && line.reach() <= line.settings.rows
    }),
    corner("full with fewer, for want of room", |line| {
        line.number == FULL && line.live.len() < 16
    }),
    corner("raised up to row R above the bottom", |line| {
        line.is_raised() && line.reach() == line.settings.rows
    }),
    corner("full for one row", |line| {
        line.number == FULL && line.reach() == line.settings.rows + 1
    }),
    corner("full beside windows of several widths", |line| {
        line.number == FULL
            && line
                .live
                .iter()
                .any(|size| size.width != line.live[0].width)
    }),
    of_images("raised, its top comes round", |line| {
        line.is_raised() && line.words_after[layout::PUT_WINDOW] < line.put_top()
    }),
    corner("dropped to a window of another depth", |line| {
        line.is_dropped() && line.live[1].depth != line.live[0].depth
    }),
    corner("dropped to a window of another width", |line| {
        line.is_dropped() && line.live[1].width != line.live[0].width
    }),
    corner("dropped from 16 live windows", |line| {
        line.is_dropped() && line.live.len() == 16
    }),
    corner("dropped to the only window", |line| {
        line.is_dropped() && line.live.len() == 2
    }),
    corner("empty by a confirm in a narrow window", |line| {
        line.number == EMPTY && line.is_at(Side::Take, Stage::Confirm) && is_narrow(line)
    }),
    corner("a sum of 0, and the put window has moved", |line| {
        line.confirmed() == Some(true) && line.put_top() != line.seen_top()
    }),
    corner("a sum other than 0 alone", |line| {
        line.confirmed() == Some(false) && line.put_top() == line.seen_top()
    }),
    corner("both", |line| {
        line.confirmed() == Some(false) && line.put_top() != line.seen_top()
    }),
    of_images("a begin with other seen words than 0", |line| {
        line.worker[layout::PHASE] == 0
            && line.number == MOVING
            && line.seen_bottom() > 0
            && line.seen_width() > 0
    }),
    corner("a final answer clears the seen words", |line| {
        [PUT, TAKEN, EMPTY, FULL].contains(&line.number)
            && line.seen_bottom() > 0
            && line.after[layout::SEEN_BOTTOM..=layout::SEEN_WIDTH] == [0, 0]
    }),
    corner("a restart keeps the seen words", |line| {
        line.is_at_stage(Stage::Shift)
            && line.number == MOVING
            && line.seen_bottom() > 0
            && line.after[layout::SEEN_BOTTOM] == line.seen_bottom()
    }),
];

fn is_narrow(line: &Line) -> bool {
    line.seen_width() < line.settings.width
}

/// With a miss.
fn ends_pass(line: &Line) -> bool {
    line.worker[layout::SCAN] + 1 == line.seen_width()
        && line.after[layout::PHASE] != line.worker[layout::PHASE]
        && line.after[layout::SCAN] == 0
}

/// By its commit: the pool is fit.
fn is_refused(line: &Line, side: Side) -> bool {
    line.number == UNFIT && line.is_at(side, Stage::Commit)
}

/// A take that passes over as many items as its own window's sizes allow.
fn is_at_bound(line: &Line, compare: fn(u32, u32) -> bool) -> bool {
    let Some(size) = line.seen_size().filter(|_| line.number == TAKEN) else {
        return false;
    };
    let own = size.distance_bound();
    let pools = line.own_size().distance_bound();
    own > 0 && compare(own, pools) && line.passed_over() == own
}

fn would_count(line: &Line, why: Why) -> bool {
    line.number == TAKEN && line.some_row_of_nothing(|row| row.why == why && row.would_count)
}
