//! What steps of both kinds do to a worker.

use crate::admit::Parts;
use second::layout::{FAILED_COMMITS, INDEX, PHASE, PUTS_MADE, SCAN, STRIDE, VALUE};
use second::{Answer, MOVING, PUT, TAKEN};

/// The idle worker that a final answer leaves.
pub fn idle<const N: usize>(worker: &mut [u32; N], answer: Answer) -> Answer {
    *worker = cleared(worker, 0, 0);
    answer
}

/// With this phase and value; it keeps its index and its failed commits.
pub fn cleared<const N: usize>(worker: &[u32; N], phase: u32, value: u32) -> [u32; N] {
    let mut cleared = [0; N];
    cleared[PHASE] = phase;
    cleared[VALUE] = value;
    cleared[INDEX] = worker[INDEX];
    cleared[FAILED_COMMITS] = worker[FAILED_COMMITS];
    cleared
}

pub fn next_index<const N: usize>(worker: &mut [u32; N], width: u32) {
    let next = worker[INDEX] + 1;
    worker[INDEX] = if next == width { 0 } else { next };
}

/// Adds 1 to scan; true at the w-th, where scan becomes 0 again.
pub fn scanned_all<const N: usize>(worker: &mut [u32; N], width: u32) -> bool {
    let scan = worker[SCAN] + 1;
    let all = scan == width;
    worker[SCAN] = if all { 0 } else { scan };
    all
}

/// A commit that another one came before is counted, and hops by the stride,
/// where 0 stands for 1, modulo the pool's width.
pub fn lost<const N: usize>(parts: &mut Parts<N>, number: usize, restart: u32) -> Answer {
    let width = parts.subs.len() as u32;
    let worker = &mut parts.workers[number];
    let hopped = worker[INDEX] + parts.header[STRIDE].max(1);
    worker[INDEX] = if hopped < width {
        hopped
    } else {
        hopped - width
    };
    worker[FAILED_COMMITS] = worker[FAILED_COMMITS].wrapping_add(1);
    worker[PHASE] = restart;
    Answer::of(MOVING)
}

/// The worker's item lands in a row and its cell; the sub's words are then `words`.
pub fn landed<const N: usize>(
    parts: &mut Parts<N>,
    number: usize,
    row: u32,
    cell: usize,
    words: [u32; 2],
) -> Answer {
    let worker = &mut parts.workers[number];
    let (value, sub) = (worker[VALUE], worker[INDEX]);
    let stamp = parts.header[PUTS_MADE].wrapping_add(1);
    parts.cells[cell] = [value, stamp];
    parts.subs[sub as usize] = words;
    parts.header[PUTS_MADE] = stamp;
    idle(worker, Answer::with(PUT, [value, sub, row, stamp, 0]))
}

/// The row's item is taken, with the distance of its stamp just before; the
/// sub's words are then `words`.
pub fn taken<const N: usize>(
    parts: &mut Parts<N>,
    number: usize,
    row: u32,
    cell: usize,
    words: [u32; 2],
    passed: fn(&Parts<N>, u32) -> u32,
) -> Answer {
    let [value, stamp] = parts.cells[cell];
    let distance = passed(parts, stamp);
    let worker = &mut parts.workers[number];
    let sub = worker[INDEX];
    parts.subs[sub as usize] = words;
    idle(
        worker,
        Answer::with(TAKEN, [value, sub, row, stamp, distance]),
    )
}
