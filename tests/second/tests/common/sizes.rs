//! Edition 2's calls, and its words by name (K8).

use super::{fitness_in, made_in, worker_at};
use second::phase::Side;
use second::{in_edition, layout, Answer, Dispatched, Edition, Settings, Size};
use second::{IDLE, MOVING, NO_WORKER};

pub const TWO: Edition = Edition::Two;

/// A width and a depth.
pub type Pair = (u32, u32);

pub fn made_2(settings: Settings) -> Vec<u32> {
    made_in(TWO, settings)
}

pub fn begin_put(words: &mut [u32], worker: u32, value: u32) -> Answer {
    in_edition::begin_put(TWO, words, worker, value)
}

pub fn begin_take(words: &mut [u32], worker: u32) -> Answer {
    in_edition::begin_take(TWO, words, worker)
}

pub fn step(words: &mut [u32], worker: u32) -> Answer {
    in_edition::step(TWO, words, worker)
}

pub fn dispatch(words: &mut [u32], named: u32, count: u32) -> Dispatched {
    in_edition::dispatch(TWO, words, named, count)
}

pub fn set_size(words: &mut [u32], (width, depth): Pair) -> u32 {
    let answer = second::set_size(words, Size { width, depth });
    assert_eq!(answer, Answer::of(answer.number));
    answer.number
}

pub fn begin(words: &mut [u32], worker: u32, side: Side) {
    let answer = match side {
        Side::Put => begin_put(words, worker, 7),
        Side::Take => begin_take(words, worker),
    };
    assert_eq!(answer, Answer::of(MOVING));
}

/// So many steps, each of which moves.
pub fn moves(words: &mut [u32], worker: u32, steps: u32) {
    for _ in 0..steps {
        assert_eq!(step(words, worker), Answer::of(MOVING));
    }
}

/// To the final answer; and how many steps it took.
pub fn finish(words: &mut [u32], worker: u32) -> (Answer, u32) {
    let mut steps = 1;
    let mut answer = step(words, worker);
    while answer.number == MOVING {
        answer = step(words, worker);
        steps += 1;
    }
    (answer, steps)
}

pub fn put(words: &mut [u32], worker: u32, value: u32) -> Answer {
    assert_eq!(begin_put(words, worker, value), Answer::of(MOVING));
    finish(words, worker).0
}

pub fn take(words: &mut [u32], worker: u32) -> Answer {
    assert_eq!(begin_take(words, worker), Answer::of(MOVING));
    finish(words, worker).0
}

/// The place of a word after the cells (layout::NEXT_WIDTH and so on).
pub fn size_word(words: &[u32], which: usize) -> usize {
    Settings::of_words(words).sizes_at_in(TWO) + which
}

/// All words after the cells.
pub fn size_words(words: &[u32]) -> &[u32] {
    &words[size_word(words, 0)..][..TWO.size_words()]
}

/// The sizes of the live windows, from the take window to the put window.
pub fn live(words: &[u32]) -> Vec<Pair> {
    let words = size_words(words);
    let pairs = words[layout::SIZES..].chunks(layout::SIZE_WORDS);
    pairs
        .take(words[layout::LIVE] as usize)
        .map(|pair| (pair[layout::SIZE_WIDTH], pair[layout::SIZE_DEPTH]))
        .collect()
}

/// The live windows from the one of this top on, P as they lead up to it modulo 2^32.
pub fn set_live(words: &mut [u32], take_top: u32, sizes: &[Pair]) {
    let at = size_word(words, 0);
    words[at + layout::LIVE] = sizes.len() as u32;
    let all = at + layout::SIZES..at + TWO.size_words();
    words[all.clone()].fill(0);
    for (pair, (width, depth)) in words[all].chunks_mut(layout::SIZE_WORDS).zip(sizes) {
        pair[layout::SIZE_WIDTH] = *width;
        pair[layout::SIZE_DEPTH] = *depth;
    }
    let above = sizes[1..].iter().map(|(_, depth)| depth).sum();
    words[layout::TAKE_WINDOW] = take_top;
    words[layout::PUT_WINDOW] = take_top.wrapping_add(above);
}

/// The last put row and the last taken row.
pub fn sub(words: &[u32], j: u32) -> [u32; 2] {
    let at = sub_at(words, j);
    [words[at], words[at + 1]]
}

pub fn set_sub(words: &mut [u32], j: u32, [put, taken]: [u32; 2]) {
    let at = sub_at(words, j);
    words[at + layout::ITEMS_PUT] = put;
    words[at + layout::ITEMS_TAKEN] = taken;
}

fn sub_at(words: &[u32], j: u32) -> usize {
    Settings::of_words(words).subs_at() + layout::SUB_WORDS * j as usize
}

pub fn worker_word(words: &[u32], worker: u32, which: usize) -> u32 {
    words[worker_at(words, worker) + which]
}

pub fn set_worker(words: &mut [u32], worker: u32, set: &[(usize, u32)]) {
    let at = worker_at(words, worker);
    for (which, word) in set {
        words[at + which] = *word;
    }
}

pub fn fitness(words: &[u32]) -> u32 {
    fitness_in(TWO, words)
}

pub fn is_fit(words: &[u32]) -> bool {
    fitness(words) == NO_WORKER
}

pub fn is_busy(words: &[u32], worker: u32) -> bool {
    step(&mut words.to_vec(), worker).number != IDLE
}
