//! A step of a stack.

use crate::admit::Parts;
use crate::calls::{PUT_WINDOW_PHASE, TAKE_WINDOW_PHASE};
use crate::distance::newer;
use crate::worker::{idle, landed, lost, next_index, scanned_all, taken};
use second::layout::{DEPTH, EXTRA, INDEX, PHASE, ROWS, SCAN, SEEN, SEEN_WINDOW, SHIFT, SUM};
use second::layout::{WINDOW, WINDOW_VERSION};
use second::{Answer, EMPTY, FULL, MOVING, UNFIT};

pub fn step<const N: usize>(parts: &mut Parts<N>, number: usize) -> Answer {
    match parts.workers[number][PHASE] {
        1 | 9 => window(parts, number),
        2 => read(parts, number, true),
        10 => read(parts, number, false),
        3 | 11 => check(parts, number),
        4 => commit_put(parts, number),
        12 => commit_take(parts, number),
        5 => shift(parts, number, true),
        13 => shift(parts, number, false),
        6 => confirm(parts, number, PUT_WINDOW_PHASE, FULL),
        _ => confirm(parts, number, TAKE_WINDOW_PHASE, EMPTY),
    }
}

fn window<const N: usize>(parts: &mut Parts<N>, number: usize) -> Answer {
    let worker = &mut parts.workers[number];
    worker[PHASE] += 1;
    worker[SEEN_WINDOW] = parts.header[WINDOW];
    worker[EXTRA] = parts.header[WINDOW_VERSION];
    worker[SCAN] = 0;
    worker[SEEN] = 0;
    worker[SUM] = 0;
    Answer::of(MOVING)
}

fn read<const N: usize>(parts: &mut Parts<N>, number: usize, put: bool) -> Answer {
    let worker = &mut parts.workers[number];
    let [held, version] = parts.subs[worker[INDEX] as usize];
    worker[SUM] = worker[SUM].wrapping_add(version);
    let seen_window = worker[SEEN_WINDOW];
    let hit = if put {
        held < seen_window
    } else {
        held > seen_window.wrapping_sub(parts.header[DEPTH])
    };
    if hit {
        worker[SEEN] = version;
        worker[PHASE] += 1;
        return Answer::of(MOVING);
    }
    let width = parts.subs.len() as u32;
    next_index(worker, width);
    if scanned_all(worker, width) {
        worker[PHASE] += 3;
    }
    Answer::of(MOVING)
}

fn check<const N: usize>(parts: &mut Parts<N>, number: usize) -> Answer {
    let worker = &mut parts.workers[number];
    if parts.header[WINDOW_VERSION] == worker[EXTRA] {
        worker[PHASE] += 1;
    } else {
        worker[PHASE] -= 2;
    }
    Answer::of(MOVING)
}

fn commit_put<const N: usize>(parts: &mut Parts<N>, number: usize) -> Answer {
    let worker = &mut parts.workers[number];
    let sub = worker[INDEX];
    let [held, version] = parts.subs[sub as usize];
    if version != worker[SEEN] {
        return lost(parts, number, PUT_WINDOW_PHASE);
    }
    let rows = parts.header[ROWS];
    if held == rows {
        return Answer::of(UNFIT);
    }
    let (row, cell) = (held + 1, (sub * rows + held) as usize);
    landed(parts, number, row, cell, [row, version.wrapping_add(1)])
}

fn commit_take<const N: usize>(parts: &mut Parts<N>, number: usize) -> Answer {
    let worker = &mut parts.workers[number];
    let sub = worker[INDEX];
    let [row, version] = parts.subs[sub as usize];
    if version != worker[SEEN] {
        return lost(parts, number, TAKE_WINDOW_PHASE);
    }
    if row == 0 {
        return Answer::of(UNFIT);
    }
    let cell = (sub * parts.header[ROWS] + row - 1) as usize;
    let after = [row - 1, version.wrapping_add(1)];
    taken(parts, number, row, cell, after, newer)
}

fn shift<const N: usize>(parts: &mut Parts<N>, number: usize, put: bool) -> Answer {
    let worker = &mut parts.workers[number];
    let header = &mut parts.header;
    let (window, version) = (header[WINDOW], header[WINDOW_VERSION]);
    if version == worker[EXTRA] {
        let up = window.wrapping_add(header[SHIFT]);
        let down = window.wrapping_sub(header[SHIFT]);
        let (free, moved) = if put {
            (up <= header[ROWS], up)
        } else {
            (window > header[DEPTH], down)
        };
        if !free {
            worker[PHASE] += 1;
            return Answer::of(MOVING);
        }
        header[WINDOW] = moved;
        header[WINDOW_VERSION] = version.wrapping_add(1);
    }
    worker[PHASE] -= 4;
    Answer::of(MOVING)
}

/// Takes a sub's version off the sum; the last sub decides.
fn confirm<const N: usize>(parts: &mut Parts<N>, number: usize, restart: u32, none: u32) -> Answer {
    let worker = &mut parts.workers[number];
    let [_, version] = parts.subs[worker[INDEX] as usize];
    worker[SUM] = worker[SUM].wrapping_sub(version);
    let width = parts.subs.len() as u32;
    next_index(worker, width);
    if scanned_all(worker, width) {
        if worker[SUM] == 0 {
            return idle(worker, Answer::of(none));
        }
        worker[PHASE] = restart;
    }
    Answer::of(MOVING)
}
