//! The calls to be timed: recorded once on the second implementation, so that
//! every side makes exactly the same calls on exactly the same words.

use crate::spacers::{value, SHARE};
use second::{Settings, Size, FULL, MOVING};
use sides::{Call, SECOND};

#[derive(Clone, Copy)]
enum Operation {
    Put,
    Take,
}

/// Words to start from, then puts, then takes that lead back to about as many
/// items.
pub struct Workload {
    pub start: Vec<u32>,
    pub puts: Vec<Call>,
    pub takes: Vec<Call>,
    /// The words after both, to see that all sides did the same.
    pub end: Vec<u32>,
}

impl Workload {
    /// These puts from the start on, and so many takes of the words that they left.
    fn with_takes(
        settings: &Settings,
        start: Vec<u32>,
        puts: Vec<Call>,
        mut words: Vec<u32>,
        operations: u32,
    ) -> Self {
        let takes = record(&mut words, settings, Operation::Take, operations);
        Self {
            start,
            puts,
            takes,
            end: words,
        }
    }
}

/// How many items the pool holds at the start.
#[derive(Clone, Copy)]
pub enum Fill {
    Items(u32),
    /// As many as it takes until a put is answered "full", less as many as the
    /// puts to be timed.
    Full,
}

pub fn workload(settings: &Settings, fill: Fill) -> Workload {
    // Two windows' worth, so that windows move.
    let operations = (2 * settings.width * settings.depth).max(2 * settings.workers);
    let mut words = match fill {
        Fill::Items(items) => held(settings, items),
        Fill::Full => {
            let mut words = held(settings, settings.width * settings.rows + 1);
            record(&mut words, settings, Operation::Take, operations);
            words
        }
    };
    let start = words.clone();
    let puts = record(&mut words, settings, Operation::Put, operations);
    Workload::with_takes(settings, start, puts, words, operations)
}

/// From these words on, with a size set before each so many puts, in turn.
pub fn sized(settings: &Settings, start: Vec<u32>, sizes: &[Size], every: u32) -> Workload {
    let operations = (2 * settings.width * settings.depth).max(2 * settings.workers);
    let mut words = start.clone();
    let mut puts = Vec::new();
    let mut next = sizes.iter().cycle();
    let mut left = operations;
    while left > 0 {
        if let Some(size) = next.next() {
            let call = Call::SetSize(*size);
            assert!(SECOND.call(&mut words, call).number == MOVING);
            puts.push(call);
        }
        let some = left.min(every);
        puts.extend(record(&mut words, settings, Operation::Put, some));
        left -= some;
    }
    Workload::with_takes(settings, start, puts, words, operations)
}

/// Operations of the workers in turn, each from its begin to its answer; the
/// first "full" is the last. Some puts are of spacers.
fn record(
    words: &mut [u32],
    settings: &Settings,
    operation: Operation,
    operations: u32,
) -> Vec<Call> {
    let mut calls = Vec::new();
    for number in 1..=operations {
        let worker = (number - 1) % settings.workers;
        let value = value(number, SHARE);
        let mut call = match operation {
            Operation::Put => Call::BeginPut { worker, value },
            Operation::Take => Call::BeginTake { worker },
        };
        loop {
            let number = SECOND.call(words, call).number;
            calls.push(call);
            call = Call::Step { worker };
            match number {
                MOVING => {}
                FULL => return calls,
                _ => break,
            }
        }
    }
    calls
}

/// A pool that holds so many items.
pub fn held(settings: &Settings, items: u32) -> Vec<u32> {
    let mut words = vec![0; settings.needed_words()];
    SECOND.call(&mut words, Call::Make(*settings));
    record(&mut words, settings, Operation::Put, items);
    words
}
