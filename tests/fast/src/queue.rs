//! A step of a queue. Where windows have sizes of their own (K8), a row is above the higher
//! of a last row and a bottom; before, a sub's words are counts.

use crate::admit::Parts;
use crate::calls::{PUT_WINDOW_PHASE, TAKE_WINDOW_PHASE};
use crate::distance::older;
use crate::edition::has_sizes;
use crate::sizes;
use crate::worker::{idle, landed, lost, next_index, scanned_all, taken};
use second::layout::{DEPTH, EXTRA, INDEX, PHASE, PUT_WINDOW, ROWS, SCAN, SEEN, SEEN_WINDOW};
use second::layout::{LIVE, MOST_LIVE, NEXT_DEPTH, SEEN_BOTTOM, SEEN_WIDTH, SIZES};
use second::layout::{SIZE_DEPTH, SIZE_WIDTH, SIZE_WORDS, SUM, TAKE_WINDOW};
use second::{Answer, EMPTY, FULL, MOVING, UNFIT};

pub fn step<const N: usize>(parts: &mut Parts<N>, number: usize) -> Answer {
    match parts.workers[number][PHASE] {
        1 => window(parts, number, PUT_WINDOW),
        2 => read_put(parts, number),
        4 => commit_put(parts, number),
        5 => shift_put(parts, number),
        9 => window(parts, number, TAKE_WINDOW),
        10 => read_take(parts, number),
        12 => commit_take(parts, number),
        13 => shift_take(parts, number),
        _ => confirm(parts, number),
    }
}

/// How many subs the worker visits.
fn width<const N: usize>(worker: &[u32; N], subs: &[[u32; 2]]) -> u32 {
    if has_sizes(N) {
        worker[SEEN_WIDTH]
    } else {
        subs.len() as u32
    }
}

/// The higher of a last row and the seen bottom.
fn above_bottom<const N: usize>(worker: &[u32; N], row: u32) -> u32 {
    if has_sizes(N) {
        row.max(worker[SEEN_BOTTOM])
    } else {
        row
    }
}

fn window<const N: usize>(parts: &mut Parts<N>, number: usize, which: usize) -> Answer {
    let worker = &mut parts.workers[number];
    let top = parts.header[which];
    worker[PHASE] += 1;
    worker[SEEN_WINDOW] = top;
    worker[EXTRA] = 0;
    worker[SCAN] = 0;
    worker[SEEN] = 0;
    worker[SUM] = 0;
    if has_sizes(N) {
        let k = if which == PUT_WINDOW {
            parts.sizes[LIVE] - 1
        } else {
            0
        };
        let (pairs, _) = parts.sizes[SIZES..].as_chunks::<SIZE_WORDS>();
        let pair = pairs[k as usize];
        let width = pair[SIZE_WIDTH];
        worker[SEEN_BOTTOM] = top - pair[SIZE_DEPTH];
        worker[SEEN_WIDTH] = width;
        if worker[INDEX] >= width {
            worker[INDEX] %= width;
        }
    }
    Answer::of(MOVING)
}

fn read_put<const N: usize>(parts: &mut Parts<N>, number: usize) -> Answer {
    let worker = &mut parts.workers[number];
    let [put, _] = parts.subs[worker[INDEX] as usize];
    if put < worker[SEEN_WINDOW] {
        worker[SEEN] = put;
        worker[PHASE] = 4;
    } else {
        let width = width(worker, parts.subs);
        next_index(worker, width);
        if scanned_all(worker, width) {
            worker[PHASE] = 5;
        }
    }
    Answer::of(MOVING)
}

fn read_take<const N: usize>(parts: &mut Parts<N>, number: usize) -> Answer {
    let worker = &mut parts.workers[number];
    let [put, taken] = parts.subs[worker[INDEX] as usize];
    worker[SUM] = worker[SUM].wrapping_add(above_bottom(worker, put));
    let in_window = taken < worker[SEEN_WINDOW];
    if in_window && put != taken {
        worker[SEEN] = taken;
        worker[PHASE] = 12;
        return Answer::of(MOVING);
    }
    worker[EXTRA] = worker[EXTRA].wrapping_add(u32::from(in_window));
    let width = width(worker, parts.subs);
    next_index(worker, width);
    if scanned_all(worker, width) {
        worker[PHASE] = if worker[EXTRA] == 0 { 13 } else { 14 };
    }
    Answer::of(MOVING)
}

fn commit_put<const N: usize>(parts: &mut Parts<N>, number: usize) -> Answer {
    let worker = &parts.workers[number];
    let sub = worker[INDEX];
    let [put, taken] = parts.subs[sub as usize];
    if put != worker[SEEN] {
        return lost(parts, number, PUT_WINDOW_PHASE);
    }
    let rows = parts.header[ROWS];
    let below = above_bottom(worker, put);
    let free_above = taken.max(parts.take_bottom());
    if u64::from(below) >= u64::from(free_above) + u64::from(rows) {
        return Answer::of(UNFIT);
    }
    let cell = (sub * rows + below % rows) as usize;
    let row = below.wrapping_add(1);
    landed(parts, number, row, cell, [row, taken])
}

fn commit_take<const N: usize>(parts: &mut Parts<N>, number: usize) -> Answer {
    let worker = &parts.workers[number];
    let sub = worker[INDEX];
    let [put, was_taken] = parts.subs[sub as usize];
    if was_taken != worker[SEEN] {
        return lost(parts, number, TAKE_WINDOW_PHASE);
    }
    let below = above_bottom(worker, was_taken);
    if below >= put {
        return Answer::of(UNFIT);
    }
    let rows = parts.header[ROWS];
    let cell = (sub * rows + below % rows) as usize;
    let row = below + 1;
    taken(parts, number, row, cell, [put, row], older)
}

fn shift_put<const N: usize>(parts: &mut Parts<N>, number: usize) -> Answer {
    let put_window = parts.header[PUT_WINDOW];
    if put_window == parts.workers[number][SEEN_WINDOW] {
        let (depth, bottom) = next_depth_and_take_bottom(parts);
        let top = put_window.wrapping_add(depth);
        let room = !has_sizes(N) || parts.sizes[LIVE] < MOST_LIVE;
        if top.wrapping_sub(bottom) > parts.header[ROWS] || !room {
            return idle(&mut parts.workers[number], Answer::of(FULL));
        }
        parts.header[PUT_WINDOW] = top;
        if has_sizes(N) {
            sizes::append(parts.sizes());
        }
    }
    parts.workers[number][PHASE] = PUT_WINDOW_PHASE;
    Answer::of(MOVING)
}

/// The bottom modulo 2^32, as P + 2d - T is where each window has the pool's depth.
fn next_depth_and_take_bottom<const N: usize>(parts: &Parts<N>) -> (u32, u32) {
    if has_sizes(N) {
        (parts.sizes[NEXT_DEPTH], parts.take_bottom())
    } else {
        let depth = parts.header[DEPTH];
        (depth, parts.header[TAKE_WINDOW].wrapping_sub(depth))
    }
}

fn shift_take<const N: usize>(parts: &mut Parts<N>, number: usize) -> Answer {
    let take_window = parts.header[TAKE_WINDOW];
    if take_window == parts.workers[number][SEEN_WINDOW] {
        if take_window >= parts.header[PUT_WINDOW] {
            return idle(&mut parts.workers[number], Answer::of(EMPTY));
        }
        let mut depth = parts.header[DEPTH];
        if has_sizes(N) {
            sizes::drop_first(parts.sizes());
            depth = parts.sizes[SIZES + SIZE_DEPTH];
        }
        parts.header[TAKE_WINDOW] = take_window.wrapping_add(depth);
    }
    parts.workers[number][PHASE] = TAKE_WINDOW_PHASE;
    Answer::of(MOVING)
}

/// Takes a sub's part off the sum; the last sub decides, and whether P has moved.
fn confirm<const N: usize>(parts: &mut Parts<N>, number: usize) -> Answer {
    let worker = &mut parts.workers[number];
    let [put, _] = parts.subs[worker[INDEX] as usize];
    worker[SUM] = worker[SUM].wrapping_sub(above_bottom(worker, put));
    let width = width(worker, parts.subs);
    next_index(worker, width);
    if scanned_all(worker, width) {
        let moved = has_sizes(N) && parts.header[PUT_WINDOW] != worker[SEEN_WINDOW];
        if worker[SUM] == 0 && !moved {
            return idle(worker, Answer::of(EMPTY));
        }
        worker[PHASE] = TAKE_WINDOW_PHASE;
    }
    Answer::of(MOVING)
}
