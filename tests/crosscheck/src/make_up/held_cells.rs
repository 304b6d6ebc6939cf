//! Images for the distance of a take: its subs' held cells begin and end where a
//! segment (K2) does, the stamps of all cells, held or not, are on either side of
//! the taken one, and so are their values, but for the spacers (K4).

use super::values::Values;
use super::{image, live_windows};
use crate::rng::Rng;
use second::phase::{Side, Stage};
use second::{layout, Edition, Settings, QUEUE};

/// The cell of a sub's first held row, and how many it holds, by R.
type Ring = fn(&mut Rng, u32) -> (u32, u32);

const EMPTY: Ring = |rng, rows| (rng.below(rows), 0);
const ANY: Ring = |rng, rows| (rng.below(rows), rng.between(1, rows));
const FROM_FIRST: Ring = |rng, rows| (0, rng.between(1, rows));
const UP_TO_LAST: Ring = |rng, rows| {
    let start = rng.below(rows);
    (start, rows - start)
};
const ONE_BEFORE_FIRST: Ring = |rng, rows| (rows - 1, rng.between(2, rows));
const ONE_AFTER_LAST: Ring = |rng, rows| {
    let start = rng.between(1, rows - 1);
    (start, rows - start + 1)
};
const FULL: Ring = |_, rows| (0, rows);
const FULL_IN_TWO: Ring = |rng, rows| (rng.between(1, rows - 1), rows);
const ONE: Ring = |rng, rows| (rng.below(rows), 1);

/// A sub of which an item is taken.
const WITH_ITEMS: [Ring; 7] = [
    ANY,
    FROM_FIRST,
    UP_TO_LAST,
    ONE_BEFORE_FIRST,
    ONE_AFTER_LAST,
    FULL,
    FULL_IN_TWO,
];

/// A fit image, and its worker whose next step takes an item.
pub fn image(rng: &mut Rng, settings: &Settings, values: Values) -> (Vec<u32>, u32) {
    with_rings(rng, settings, values, |rng, is_taken_from| {
        let with_items = rng.pick(&WITH_ITEMS);
        if !is_taken_from && rng.chance(20) {
            EMPTY
        } else {
            with_items
        }
    })
}

/// The same of a queue, with a worker that has seen a window of this width.
pub fn of_seen_width(
    rng: &mut Rng,
    settings: &Settings,
    values: Values,
    seen_width: u32,
) -> (Vec<u32>, u32) {
    loop {
        let (mut words, worker) = image(rng, settings, values);
        let at = settings.workers_at() + layout::WORKER_WORDS * worker as usize;
        if words[at + layout::INDEX] < seen_width {
            words[at + layout::SEEN_WIDTH] = seen_width;
            words[at + layout::SCAN] = rng.below(seen_width);
            return (words, worker);
        }
    }
}

/// The same with one item in each sub: few are passed over, and often all of them
/// are spacers.
pub fn of_one_item_each(rng: &mut Rng, settings: &Settings, values: Values) -> (Vec<u32>, u32) {
    with_rings(rng, settings, values, |_, _| ONE)
}

/// By which ring each sub has, and whether the item is taken from it.
fn with_rings(
    rng: &mut Rng,
    settings: &Settings,
    values: Values,
    ring: impl Fn(&mut Rng, bool) -> Ring,
) -> (Vec<u32>, u32) {
    let mut words = image::of(rng, settings);
    words[layout::STEPS_COUNTED] = rng.below(100);
    let index = rng.below(settings.width);
    if settings.kind == QUEUE {
        live_windows::set_many(rng, settings, Edition::CURRENT, &mut words);
    }
    for j in 0..settings.width {
        let ring = ring(rng, j == index);
        sub(rng, settings, &mut words, j, ring);
    }
    let worker = rng.below(settings.workers);
    before_the_take(rng, settings, &mut words, (worker, index));
    fill(rng, &mut words[settings.cells()], values);
    (words, worker)
}

/// Of a stack, whose held cells are from the first on, only their number. Of a queue rows
/// above the take window's bottom, most of them up to the put window's top; now and then
/// the last taken one is below that bottom.
fn sub(rng: &mut Rng, settings: &Settings, words: &mut [u32], j: u32, ring: Ring) {
    let rows = settings.rows;
    let (start, held) = ring(rng, rows);
    let at = settings.subs_at() + layout::SUB_WORDS * j as usize;
    if settings.kind != QUEUE {
        words[at + layout::ITEMS_HELD] = held;
        return;
    }
    let bottom = live_windows::take_bottom(settings, Edition::CURRENT, words);
    let top = words[layout::PUT_WINDOW];
    // Near 2^32 there may be fewer rows left.
    let held = held.min(u32::MAX - bottom);
    let first = bottom.saturating_add((start + rows - bottom % rows) % rows);
    let room = top.saturating_sub(first).saturating_sub(held);
    let lap = rng.below(room / rows + 1);
    let mut below = (first + lap * rows).min(u32::MAX - held);
    let mut taken = below;
    if rng.chance(25) {
        below = bottom;
        taken = bottom - rng.below(bottom.min(3) + 1);
    }
    words[at + layout::ITEMS_PUT] = match held {
        0 => taken,
        _ => below + held,
    };
    words[at + layout::ITEMS_TAKEN] = taken;
}

/// The worker stands before a commit that succeeds. Of a queue it has seen a bottom that
/// is not above the row that it takes.
fn before_the_take(
    rng: &mut Rng,
    settings: &Settings,
    words: &mut [u32],
    (worker, index): (u32, u32),
) {
    let sub = settings.subs_at() + layout::SUB_WORDS * index as usize;
    // The last taken row of a queue, the version of a stack: a sub's second word.
    let [first, seen] = [words[sub], words[sub + 1]];
    let at = settings.workers_at() + layout::WORKER_WORDS * worker as usize;
    words[at + layout::PHASE] = Side::Take.phase(Stage::Commit);
    words[at + layout::INDEX] = index;
    words[at + layout::SEEN] = seen;
    if settings.kind == QUEUE {
        let bottom = live_windows::take_bottom(settings, Edition::CURRENT, words);
        let width = rng.between(index + 1, settings.width);
        let bottoms = [0, bottom.min(first - 1), seen, first - 1];
        words[at + layout::SEEN_BOTTOM] = rng.pick(&bottoms);
        words[at + layout::SEEN_WIDTH] = width;
        words[at + layout::SCAN] = rng.below(width);
    }
}

/// All stamps near one, that of the taken cell among them; values near it too, or
/// anywhere.
fn fill(rng: &mut Rng, cells: &mut [u32], values: Values) {
    let any = rng.between(2, u32::MAX - 2);
    let middle = rng.pick(&[2, u32::MAX - 2, any]);
    let near = |rng: &mut Rng| rng.between(middle - 2, middle + 2);
    for cell in cells.chunks_mut(layout::CELL_WORDS) {
        cell[layout::CELL_STAMP] = near(rng);
        cell[layout::CELL_VALUE] = if rng.chance(50) {
            values.spacer_or(rng, near)
        } else {
            values.word(rng)
        };
    }
}
