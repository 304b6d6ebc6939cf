//! The count of a distance: a sub's held rows are one or two runs of cells, for each live
//! window where windows have sizes of their own, and no spacer counts.

use crate::admit::Parts;
use crate::edition::has_sizes;
use second::layout::{LIVE, PUT_WINDOW, ROWS, SIZES, SIZE_WORDS};
use second::SPACER;

/// Held items with a stamp smaller than `stamp` in a queue.
pub fn older<const N: usize>(parts: &Parts<N>, stamp: u32) -> u32 {
    if has_sizes(N) {
        return older_in_windows(parts, stamp);
    }
    let rows = parts.header[ROWS] as usize;
    let mut count = 0;
    for ([put, taken], ring) in parts.subs.iter().zip(parts.cells.chunks_exact(rows)) {
        let items = (put - taken) as usize;
        if items == 0 {
            continue;
        }
        let start = *taken as usize % rows;
        count += smaller_in_ring(ring, start, items, stamp);
    }
    count
}

/// The cells of so many rows from `start` on, up to the last one and on from the first.
fn smaller_in_ring(ring: &[[u32; 2]], start: usize, items: usize, stamp: u32) -> u32 {
    let rows = ring.len();
    let end = start + items;
    if end <= rows {
        smaller(&ring[start..end], stamp)
    } else {
        smaller(&ring[start..], stamp) + smaller(&ring[..end - rows], stamp)
    }
}

/// A sub within the width of every live window has its rows in one piece; another one has
/// a piece for each window that it lies in. Rows are counted from the take window's bottom.
fn older_in_windows<const N: usize>(parts: &Parts<N>, stamp: u32) -> u32 {
    let rows = parts.header[ROWS] as usize;
    let bottom = parts.take_bottom();
    let highest = parts.header[PUT_WINDOW] - bottom;
    let first_cell = bottom as usize % rows;
    let live = parts.sizes[LIVE] as usize;
    let (pairs, _) = parts.sizes[SIZES..].as_chunks::<SIZE_WORDS>();
    let pairs = &pairs[..live];
    let narrowest = pairs
        .iter()
        .fold(u32::MAX, |least, [width, _]| least.min(*width));
    let cell = |above: u32| {
        let at = first_cell + above as usize;
        match at.checked_sub(rows) {
            None => at,
            Some(again) if again < rows => again,
            Some(_) => at % rows,
        }
    };
    let mut count = 0;
    let rings = parts.cells.chunks_exact(rows);
    for (j, ([put, taken], ring)) in (0..).zip(parts.subs.iter().zip(rings)) {
        let low = taken.saturating_sub(bottom);
        let high = put.saturating_sub(bottom).min(highest);
        if low >= high {
            continue;
        }
        if j < narrowest {
            count += smaller_in_ring(ring, cell(low), (high - low) as usize, stamp);
            continue;
        }
        let mut above = 0;
        for [width, depth] in pairs {
            let (from, to) = (low.max(above), high.min(above + depth));
            above += depth;
            if j < *width && from < to {
                count += smaller_in_ring(ring, cell(from), (to - from) as usize, stamp);
            }
        }
    }
    count
}

/// Held items with a stamp greater than `stamp` in a stack.
pub fn newer<const N: usize>(parts: &Parts<N>, stamp: u32) -> u32 {
    let rows = parts.header[ROWS] as usize;
    let mut count = 0;
    for ([held, _], column) in parts.subs.iter().zip(parts.cells.chunks_exact(rows)) {
        count += counted(&column[..*held as usize], |other| other > stamp);
    }
    count
}

fn smaller(cells: &[[u32; 2]], stamp: u32) -> u32 {
    counted(cells, |other| other < stamp)
}

/// Without a branch for a cell: both tests are made.
#[inline]
fn counted(cells: &[[u32; 2]], is_ahead: impl Fn(u32) -> bool) -> u32 {
    cells.iter().fold(0, |n, [value, other]| {
        n + u32::from((*value != SPACER) & is_ahead(*other))
    })
}
