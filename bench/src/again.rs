//! A call that is made again and again on the same words, to be timed by itself.

use crate::side::Side;
use sides::{Call, SECOND};
use std::hint::black_box;
use std::time::Instant;

/// A call, and the words that it changes, as they are before it: once these are put
/// back, it can be made again.
pub struct Again {
    call: Call,
    changed: Vec<(usize, u32)>,
}

impl Again {
    pub fn of(words: &[u32], call: Call) -> Again {
        let mut after = words.to_vec();
        SECOND.call(&mut after, call);
        let pairs = words.iter().zip(&after).enumerate();
        let changed = pairs.filter(|(_, (old, new))| old != new);
        let changed = changed.map(|(at, (old, _))| (at, *old)).collect();
        Again { call, changed }
    }

    pub fn make(&self, side: &mut impl Side, words: &mut [u32], calls: u32) {
        for _ in 0..calls {
            side.call(black_box(&mut *words), self.call);
            for (at, word) in &self.changed {
                words[*at] = *word;
            }
        }
    }
}

/// A walk through what lies there, again and again: it changes nothing.
pub fn walk_again<T: ?Sized>(through: &T, walk: impl Fn(&T) -> u32, calls: u32) {
    for _ in 0..calls {
        black_box(walk(black_box(through)));
    }
}

/// Nanoseconds for each of so many calls.
pub fn per_call(calls: u32, make: impl FnOnce(u32)) -> f64 {
    let start = Instant::now();
    make(calls);
    start.elapsed().as_nanos() as f64 / f64::from(calls)
}
