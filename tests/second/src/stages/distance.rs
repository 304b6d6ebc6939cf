//! Paper 01, Distance: held items of all subs with a smaller stamp (queue) or
//! a greater one (stack) just before the take. K4: "Distance from now on counts
//! held items whose value isn't 0. A spacer's own take has a distance too": the
//! value of the item taken plays no part.

use crate::pool::{layout, Held, Pool};
use crate::spacer::SPACER;

pub(super) fn distance(pool: &Pool, stamp: u32) -> u32 {
    (0..pool.settings.width)
        .map(|j| ahead_in_sub(pool, j, stamp))
        .sum()
}

fn ahead_in_sub(pool: &Pool, j: u32, stamp: u32) -> u32 {
    let mut ahead = 0;
    for row in held_rows(pool, j) {
        let value = pool.cell(j, row, layout::CELL_VALUE);
        let other = pool.cell(j, row, layout::CELL_STAMP);
        let is_ahead = if pool.is_queue() {
            other < stamp
        } else {
            other > stamp
        };
        ahead += u32::from(is_ahead && value != SPACER);
    }
    ahead
}

/// Row by row.
fn held_rows(pool: &Pool, j: u32) -> Vec<u32> {
    let mut all = Vec::new();
    for Held { below, rows } in pool.held_rows(j) {
        all.extend((1..=rows).map(move |k| below + k));
    }
    all
}
