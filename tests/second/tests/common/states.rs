//! Every state that a small pool can come to from make, in runs of any length.

use super::normal::normal;
use super::{edition_of, made_in, queue, stack};
use second::{in_edition, Answer, Edition, Settings, BUSY, IDLE};
use std::collections::HashSet;

/// Of both kinds, with two workers, and with one sub and with two.
pub fn small_pools() -> [Settings; 4] {
    [
        queue(1, 1, 2, 2),
        queue(2, 1, 2, 2),
        stack(1, 1, 1, 2, 2),
        stack(2, 1, 1, 2, 2),
    ]
}

/// A worker's calls, of the words' edition; a put's value bears on no state.
pub const CALLS: [fn(&mut [u32], u32) -> Answer; 3] = [
    |words, worker| in_edition::begin_put(edition_of(words), words, worker, 0),
    |words, worker| in_edition::begin_take(edition_of(words), words, worker),
    |words, worker| in_edition::step(edition_of(words), words, worker),
];

/// The place of `step` in CALLS; the others are begins.
pub const STEP: usize = CALLS.len() - 1;

/// A call of CALLS that is not refused, by its place there; its answer, and the
/// state after it.
pub type Move = (usize, Answer, Vec<u32>);

/// All moves from a state, in normal words.
pub fn moves(words: &[u32]) -> Vec<Move> {
    let mut moves = Vec::new();
    for worker in 0..Settings::of_words(words).workers {
        for (which, call) in CALLS.iter().enumerate() {
            let mut after = words.to_vec();
            let answer = call(&mut after, worker);
            if answer.is_refusal() {
                assert!([BUSY, IDLE].contains(&answer.number), "{answer:?}");
                continue;
            }
            moves.push((which, answer, normal(&after)));
        }
    }
    moves
}

/// Looks at each state once, in its normal words; how many there are.
pub fn every_state(settings: Settings, look: impl FnMut(&[u32])) -> usize {
    every_state_in(Edition::CURRENT, settings, look)
}

pub fn every_state_in(edition: Edition, settings: Settings, mut look: impl FnMut(&[u32])) -> usize {
    let first = normal(&made_in(edition, settings));
    let mut known = HashSet::from([first.clone()]);
    let mut ahead = vec![first];
    while let Some(words) = ahead.pop() {
        look(&words);
        for (_, _, after) in moves(&words) {
            if !known.contains(&after) {
                known.insert(after.clone());
                ahead.push(after);
            }
        }
    }
    known.len()
}

/// The same in words that a run from make has come to, and not in normal ones.
pub fn every_state_as_it_is(edition: Edition, settings: Settings, mut look: impl FnMut(&[u32])) {
    let first = made_in(edition, settings);
    let mut known = HashSet::from([normal(&first)]);
    let mut ahead = vec![first];
    while let Some(words) = ahead.pop() {
        look(&words);
        for worker in 0..settings.workers {
            for call in CALLS {
                let mut after = words.clone();
                if !call(&mut after, worker).is_refusal() && known.insert(normal(&after)) {
                    ahead.push(after);
                }
            }
        }
    }
}
