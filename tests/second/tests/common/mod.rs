//! Shortcuts over the four calls, and what more than one test needs.
#![allow(dead_code)]

pub mod dispatch;
pub mod editions;
pub mod failed_commits;
pub mod normal;
pub mod passed;
pub mod run_file;
pub mod sized_run;
pub mod sizes;
pub mod solo;
pub mod states;
pub mod stretch;

use second::{begin_put, begin_take, in_edition, layout, phase, step};
use second::{Answer, Edition, Settings, MOVING, QUEUE, STACK};

pub fn queue(width: u32, depth: u32, rows: u32, workers: u32) -> Settings {
    Settings {
        kind: QUEUE,
        width,
        depth,
        shift: depth,
        rows,
        workers,
        stride: 0,
    }
}

pub fn stack(width: u32, depth: u32, shift: u32, rows: u32, workers: u32) -> Settings {
    Settings {
        kind: STACK,
        width,
        depth,
        shift,
        rows,
        workers,
        stride: 0,
    }
}

pub fn strided(stride: u32, settings: Settings) -> Settings {
    Settings { stride, ..settings }
}

/// In the current edition.
pub fn made(settings: Settings) -> Vec<u32> {
    made_in(Edition::CURRENT, settings)
}

pub fn made_in(edition: Edition, settings: Settings) -> Vec<u32> {
    let mut words = vec![0; settings.needed_words_in(edition)];
    let answer = in_edition::make(edition, &mut words, settings);
    assert_eq!(answer, Answer::of(MOVING));
    words
}

/// By word 11 of a pool.
pub fn edition_of(words: &[u32]) -> Edition {
    let all = [Edition::Zero, Edition::One, Edition::Two];
    all[words[layout::EDITION] as usize]
}

/// The number by which these words are refused; 24 for a fit pool, since none has a
/// worker of this number. The calls agree, and change nothing.
pub fn fitness_in(edition: Edition, words: &[u32]) -> u32 {
    const NONE: u32 = u32::MAX;
    let calls: [fn(Edition, &mut [u32]) -> u32; 4] = [
        |edition, words| in_edition::begin_put(edition, words, NONE, 7).number,
        |edition, words| in_edition::begin_take(edition, words, NONE).number,
        |edition, words| in_edition::step(edition, words, NONE).number,
        |edition, words| in_edition::dispatch(edition, words, NONE, 1).returned().0,
    ];
    let numbers = calls.map(|call| {
        let mut after = words.to_vec();
        let number = call(edition, &mut after);
        assert_eq!(after, words);
        number
    });
    assert_eq!(numbers, [numbers[0]; 4]);
    numbers[0]
}

/// Where a worker's words begin.
pub fn worker_at(words: &[u32], worker: u32) -> usize {
    let size = edition_of(words).worker_words();
    Settings::of_words(words).workers_at() + size * worker as usize
}

/// Puts a worker into a phase; past its window phase it has seen the pool's width,
/// where that is a word, and a bottom of 0.
pub fn set_phase(words: &mut [u32], worker: u32, phase: u32) {
    let at = worker_at(words, worker);
    words[at + layout::PHASE] = phase;
    let sees = words[layout::KIND] == QUEUE && edition_of(words).has_sizes();
    if sees && phase::is_past_window(phase) {
        words[at + layout::SEEN_WIDTH] = words[layout::WIDTH];
    }
}

/// Steps `worker` to its final answer; the answer and how many steps it took.
pub fn finish(words: &mut [u32], worker: u32) -> (Answer, u32) {
    for steps in 1..1000 {
        let answer = step(words, worker);
        if answer.number != MOVING {
            return (answer, steps);
        }
    }
    panic!("worker {worker} does not finish");
}

pub fn put(words: &mut [u32], worker: u32, value: u32) -> (Answer, u32) {
    assert_eq!(begin_put(words, worker, value), Answer::of(MOVING));
    finish(words, worker)
}

pub fn take(words: &mut [u32], worker: u32) -> (Answer, u32) {
    assert_eq!(begin_take(words, worker), Answer::of(MOVING));
    finish(words, worker)
}

pub fn put_answer(value: u32, sub: u32, row: u32, stamp: u32) -> Answer {
    Answer {
        number: second::PUT,
        value,
        sub,
        row,
        stamp,
        distance: 0,
    }
}

pub fn taken_answer(value: u32, sub: u32, row: u32, stamp: u32, distance: u32) -> Answer {
    Answer {
        number: second::TAKEN,
        value,
        sub,
        row,
        stamp,
        distance,
    }
}

/// A small repeatable source of numbers.
pub struct Numbers(pub u64);

impl Numbers {
    pub fn below(&mut self, n: usize) -> usize {
        self.0 = self
            .0
            .wrapping_mul(6364136223846793005)
            .wrapping_add(1442695040888963407);
        (self.0 >> 33) as usize % n
    }
}
