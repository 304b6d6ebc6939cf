//! The calls, with N words for each worker.

use crate::admit::{admit, Parts};
use crate::edition::{has_sizes, of_worker_words};
use crate::worker::cleared;
use crate::{queue, sizes, stack};
use second::layout::{self, EDITION, INDEX, PHASE, STEPS_COUNTED, STRIDE};
use second::layout::{NEXT_DEPTH, NEXT_WIDTH, SIZE_SET};
use second::{Answer, Edition, Settings, Size};
use second::{BUSY, IDLE, MOVING, NO_WORKER, OFF_LIMITS, QUEUE, SPENT, STEP_LIMIT};
use second::{NO_SUCH_SIZE, TOO_SHORT};

pub const PUT_WINDOW_PHASE: u32 = 1;
pub const TAKE_WINDOW_PHASE: u32 = 9;

pub fn make<const N: usize>(words: &mut [u32], settings: Settings) -> Answer {
    let edition = of_worker_words(N);
    if !settings.within_limits_in(edition) {
        return Answer::of(OFF_LIMITS);
    }
    let needed = settings.needed_words_in(edition);
    if words.len() < needed {
        return Answer::of(TOO_SHORT);
    }
    let Settings {
        kind,
        width,
        depth,
        shift,
        rows,
        workers,
        stride,
    } = settings;
    let take_window = if kind == QUEUE { depth } else { 0 };
    words[..needed].fill(0);
    words[..6].copy_from_slice(&[kind, width, depth, shift, rows, workers]);
    words[layout::PUT_WINDOW] = depth;
    words[layout::TAKE_WINDOW] = take_window;
    words[STRIDE] = stride;
    words[EDITION] = edition.word();
    let all = &mut words[settings.workers_at()..settings.cells_at_in(edition)];
    for (i, worker) in all.chunks_exact_mut(N).enumerate() {
        worker[INDEX] = i as u32 % width;
    }
    if has_sizes(N) && kind == QUEUE {
        sizes::make(&mut words[settings.sizes_at_in(edition)..], width, depth);
    }
    Answer::of(MOVING)
}

#[inline(always)]
pub fn begin_put<const N: usize>(words: &mut [u32], number: u32, value: u32) -> Answer {
    begin::<N>(words, number, PUT_WINDOW_PHASE, value)
}

#[inline(always)]
pub fn begin_take<const N: usize>(words: &mut [u32], number: u32) -> Answer {
    begin::<N>(words, number, TAKE_WINDOW_PHASE, 0)
}

#[inline(always)]
fn begin<const N: usize>(words: &mut [u32], number: u32, phase: u32, value: u32) -> Answer {
    let parts: Parts<N> = match admit(words) {
        Ok(parts) => parts,
        Err(refusal) => return Answer::of(refusal),
    };
    let Some(worker) = parts.workers.get_mut(number as usize) else {
        return Answer::of(NO_WORKER);
    };
    if worker[PHASE] != 0 {
        return Answer::of(BUSY);
    }
    if parts.header[STEPS_COUNTED] >= STEP_LIMIT {
        return Answer::of(SPENT);
    }
    *worker = cleared(worker, phase, value);
    Answer::of(MOVING)
}

#[inline(always)]
pub fn step<const N: usize>(words: &mut [u32], number: u32) -> Answer {
    let mut parts: Parts<N> = match admit(words) {
        Ok(parts) => parts,
        Err(refusal) => return Answer::of(refusal),
    };
    let Some(worker) = parts.workers.get(number as usize) else {
        return Answer::of(NO_WORKER);
    };
    if worker[PHASE] == 0 {
        return Answer::of(IDLE);
    }
    if parts.header[STEPS_COUNTED] >= STEP_LIMIT {
        return Answer::of(SPENT);
    }
    let answer = if parts.header[layout::KIND] == QUEUE {
        queue::step(&mut parts, number as usize)
    } else {
        stack::step(&mut parts, number as usize)
    };
    if !answer.is_refusal() {
        parts.header[STEPS_COUNTED] += 1;
    }
    answer
}

/// In edition 2, which alone has it.
pub fn set_size(words: &mut [u32], Size { width, depth }: Size) -> Answer {
    const N: usize = Edition::Two.worker_words();
    let parts: Parts<N> = match admit(words) {
        Ok(parts) => parts,
        Err(refusal) => return Answer::of(refusal),
    };
    let settings = Settings::of_words(parts.header);
    if settings.kind != QUEUE || !sizes::is_within(&settings, width, depth) {
        return Answer::of(NO_SUCH_SIZE);
    }
    parts.sizes[NEXT_WIDTH] = width;
    parts.sizes[NEXT_DEPTH] = depth;
    parts.sizes[SIZE_SET] = 1;
    Answer::of(MOVING)
}
