//! Workers that are all busy all the time: whenever an operation ends, its worker
//! begins the next, a take after a put and a put after a take. Recorded once on
//! the second implementation, like the other workloads.

use crate::spacers::{value, SHARE};
use crate::workload::held;
use second::layout::{PHASE, STEPS_COUNTED, VALUE, WORKER_WORDS};
use second::{Settings, PUT, TAKEN};
use sides::{Call, Dispatch, SECOND};

/// Steps that a dispatch may make: more than any of them needs.
pub const MANY: u32 = 100_000;

/// Words to start from, with worker 0 in turn, and a begin after each final
/// answer; the next worker by number is then in turn.
pub struct Busy {
    pub start: Vec<u32>,
    pub begins: Vec<Begin>,
    /// The words after the last begin, to see that all ways did the same.
    pub end: Vec<u32>,
}

/// The words that a begin changes, so that it takes no call.
pub struct Begin {
    at: usize,
    phase: u32,
    value: u32,
}

impl Begin {
    #[inline]
    pub fn write(&self, words: &mut [u32]) {
        words[self.at + PHASE] = self.phase;
        words[self.at + VALUE] = self.value;
    }
}

impl Busy {
    pub fn steps(&self) -> u32 {
        self.end[STEPS_COUNTED] - self.start[STEPS_COUNTED]
    }
}

/// At least so many steps on a pool that holds about so many items.
pub fn busy(settings: &Settings, items: u32, steps: u32) -> Busy {
    let workers = settings.workers;
    let mut end = held(settings, items);
    for worker in 0..workers {
        begin(&mut end, settings, worker, worker % 2 == 0);
    }
    let mut busy = Busy {
        start: end.clone(),
        begins: Vec::new(),
        end,
    };
    let mut turn = 0;
    while busy.steps() < steps {
        let dispatch = Dispatch {
            worker: turn,
            steps: MANY,
        };
        let (number, [.., worker]) = SECOND.dispatch(&mut busy.end, dispatch);
        assert!(matches!(number, PUT | TAKEN), "answered {number}");
        let begin = begin(&mut busy.end, settings, worker, number == TAKEN);
        busy.begins.push(begin);
        turn = (worker + 1) % workers;
    }
    busy
}

fn begin(words: &mut [u32], settings: &Settings, worker: u32, put: bool) -> Begin {
    let call = if put {
        let value = value(1 + words[STEPS_COUNTED], SHARE);
        Call::BeginPut { worker, value }
    } else {
        Call::BeginTake { worker }
    };
    SECOND.call(words, call);
    let at = settings.workers_at() + WORKER_WORDS * worker as usize;
    Begin {
        at,
        phase: words[at + PHASE],
        value: words[at + VALUE],
    }
}
