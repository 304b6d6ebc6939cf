//! The dispatcher. K7: "A dispatcher steps busy workers round and round by
//! number, from a worker the caller names, up to a given count of steps, and
//! stops at the first final answer, naming the worker. With no busy worker, or
//! when the count runs out, it says which; if both hold, that no worker is
//! busy." And: "A named worker of n or more gets 24; the refusals of a step
//! pass through, and the pool is left as before the step refused."

use crate::answer::{Answer, NO_WORKER};
use crate::calls::step;
use crate::pool::edition::Edition;
use crate::pool::fit::fit;
use crate::pool::phase;
use crate::pool::settings::Settings;
use crate::pool::Pool;

/// What a dispatch comes to.
#[derive(Clone, Copy, Debug, PartialEq, Eq)]
pub enum Dispatched {
    /// An operation, by its worker's final answer.
    Finished {
        worker: u32,
        answer: Answer,
    },
    NoneBusy,
    /// The turn after the last step: that of the next worker by number, busy or
    /// not. Without a step it is still the named one's.
    RanOut {
        next: u32,
    },
    /// By the number; the steps before the refused one stand.
    Refused(u32),
}

/// No worker is busy; and the count ran out. They follow on the final answers.
pub const NONE_BUSY: u32 = 5;
pub const RAN_OUT: u32 = 6;

/// What C gets: the number, and in six fields those of an answer and a worker.
pub type Returned = (u32, [u32; 6]);

impl Dispatched {
    pub fn returned(&self) -> Returned {
        match *self {
            Dispatched::Finished { worker, answer } => {
                let [value, sub, row, stamp, distance] = answer.fields();
                let fields = [value, sub, row, stamp, distance, worker];
                (answer.number, fields)
            }
            Dispatched::NoneBusy => (NONE_BUSY, [0; 6]),
            Dispatched::RanOut { next } => (RAN_OUT, [0, 0, 0, 0, 0, next]),
            Dispatched::Refused(number) => (number, [0; 6]),
        }
    }
}

pub fn dispatch(edition: Edition, words: &mut [u32], named: u32, count: u32) -> Dispatched {
    dispatch_watched(edition, words, named, count, |_, _| {})
}

/// The same, with a look at each step's worker and answer, a refused one's too.
pub fn dispatch_watched(
    edition: Edition,
    words: &mut [u32],
    named: u32,
    count: u32,
    mut watch: impl FnMut(u32, Answer),
) -> Dispatched {
    let settings = match fit(words, edition) {
        Ok(pool) => pool.settings,
        Err(refusal) => return Dispatched::Refused(refusal),
    };
    if named >= settings.workers {
        return Dispatched::Refused(NO_WORKER);
    }
    let mut turn = named;
    if busy_from(edition, words, turn).is_none() {
        return Dispatched::NoneBusy;
    }
    for _ in 0..count {
        // A step makes no other worker idle, and its own by a final answer only.
        let worker = busy_from(edition, words, turn).expect("one was busy, and none finished");
        let answer = step(edition, words, worker);
        watch(worker, answer);
        if answer.is_refusal() {
            return Dispatched::Refused(answer.number);
        }
        if answer.is_final() {
            return Dispatched::Finished { worker, answer };
        }
        turn = (worker + 1) % settings.workers;
    }
    Dispatched::RanOut { next: turn }
}

/// The first busy worker of a round that begins with this turn.
fn busy_from(edition: Edition, words: &mut [u32], turn: u32) -> Option<u32> {
    let settings = Settings::of_words(words);
    let pool = Pool {
        words,
        settings,
        edition,
    };
    (0..settings.workers)
        .map(|passed| (turn + passed) % settings.workers)
        .find(|worker| pool.worker(*worker).phase != phase::IDLE)
}
