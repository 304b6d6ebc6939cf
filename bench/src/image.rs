//! A pool written directly: puts from make fill a queue's subs from the first cell
//! on, and only with takes between them do they go past the last.

use crate::spacers::value;
use crate::tables::settings;
use second::layout::{CELL_STAMP, CELL_VALUE, CELL_WORDS, PUTS_MADE, PUT_WINDOW, SUB_WORDS};
use second::layout::{LIVE, SIZES, SIZE_WORDS, TAKE_WINDOW};
use second::{Edition, Settings, QUEUE};
use sides::{Call, SECOND};

/// The most cells of a pool, and the most rows of a sub.
const MOST_CELLS: u32 = 4_096;
const MOST_ROWS: u32 = 1_024;
/// An odd factor, which makes a permutation of the numbers below a power of two.
const MIX: u32 = 0x9e37_79b1;

/// Settings with as many rows as the cells allow.
pub fn largest(kind: u32, width: u32) -> Settings {
    settings(kind, width, MOST_ROWS.min(MOST_CELLS / width), 8)
}

/// A pool that holds so many items, spread evenly over the subs: in a queue past the
/// last cell and on from the first, in a stack from the first cell on. So many of a
/// hundred are spacers. A take of sub 0 passes over about half of them all. A cell that
/// is not held has a value and a stamp that would count.
pub fn spread(settings: &Settings, items: u32, share: u32) -> Vec<u32> {
    assert!(items.is_power_of_two() && items.is_multiple_of(settings.width));
    let held = items / settings.width;
    let mut words = vec![0; settings.needed_words()];
    SECOND.call(&mut words, Call::Make(*settings));
    words[PUTS_MADE] = items;
    let (windows, sub, junk) = if settings.kind == QUEUE {
        let taken = settings.rows - held.div_ceil(2);
        let put = taken + held;
        ([put, put], [put, taken], 0)
    } else {
        ([held.max(settings.depth), 0], [held, 1], u32::MAX)
    };
    words[PUT_WINDOW..][..2].copy_from_slice(&windows);
    if settings.kind == QUEUE && Edition::CURRENT.has_sizes() {
        cover(settings, &mut words, sub);
    }
    let (subs_at, cells_at) = (settings.subs_at(), settings.cells_at());
    for cell in words[settings.cells()].chunks_exact_mut(CELL_WORDS) {
        write(cell, u32::MAX, junk);
    }
    for j in 0..settings.width {
        words[subs_at + SUB_WORDS * j as usize..][..SUB_WORDS].copy_from_slice(&sub);
        for next in 0..held {
            let mixed = MIX.wrapping_mul(held * j + next);
            let stamp = 1 + mixed.wrapping_add(items / 2) % items;
            let cell = settings.rows * j + nth(settings, sub, next);
            let at = cells_at + CELL_WORDS * cell as usize;
            write(&mut words[at..], value(stamp, share), stamp);
        }
    }
    words
}

/// Where windows have sizes, as few as can be over just these rows of all subs: only what
/// lies in a window is held.
fn cover(settings: &Settings, words: &mut [u32], [put, taken]: [u32; SUB_WORDS]) {
    let deepest = (settings.rows / 2).min(64);
    let sizes = &mut words[settings.cells().end..];
    let mut bottom = taken;
    let mut live = 0;
    while bottom < put {
        let depth = deepest.min(put - bottom);
        sizes[SIZES + SIZE_WORDS * live..][..SIZE_WORDS].copy_from_slice(&[settings.width, depth]);
        bottom += depth;
        live += 1;
    }
    sizes[LIVE] = live as u32;
    words[TAKE_WINDOW] = taken + deepest.min(put - taken);
}

fn write(cell: &mut [u32], value: u32, stamp: u32) {
    cell[CELL_VALUE] = value;
    cell[CELL_STAMP] = stamp;
}

/// Which of a sub's cells has the item that so many takes of the sub come before.
fn nth(settings: &Settings, [first, second]: [u32; SUB_WORDS], takes: u32) -> u32 {
    if settings.kind == QUEUE {
        (second + takes) % settings.rows
    } else {
        first - 1 - takes
    }
}
