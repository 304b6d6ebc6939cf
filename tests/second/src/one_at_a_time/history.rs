//! The finished operations of a run, and the steps that are their own.

use super::fed::Fed;
use crate::answer::{Answer, EMPTY, FULL, MOVING};
use crate::pool::phase::Side;
use crate::pool::settings::Settings;
use std::collections::BTreeMap;

/// A call of demand 3's list, with its answer.
#[derive(Clone, Copy, Debug)]
pub enum Event {
    Begin {
        worker: u32,
        side: Side,
        /// The value begun; 0 for a take.
        value: u32,
        answer: Answer,
    },
    Step {
        worker: u32,
        answer: Answer,
        fed: Fed,
    },
}

impl Event {
    fn worker_and_answer(&self) -> (u32, Answer) {
        match *self {
            Event::Begin { worker, answer, .. } => (worker, answer),
            Event::Step { worker, answer, .. } => (worker, answer),
        }
    }
}

/// A finished operation.
#[derive(Debug)]
pub(super) struct Operation {
    pub worker: u32,
    pub side: Side,
    pub value: u32,
    pub answer: Answer,
    pub fed: Fed,
}

impl Operation {
    /// An empty or a full: "both give zeros and change nothing".
    pub fn changes_nothing(&self) -> bool {
        matches!(self.answer.number, EMPTY | FULL)
    }
}

/// A step of a finished operation, the places where it may stand.
pub(super) struct Moment {
    /// Where the step stands in the run.
    pub event: usize,
    pub operation: usize,
    /// The step that finished the operation.
    pub last: bool,
}

pub(super) struct History {
    pub operations: Vec<Operation>,
    /// In the order of the run.
    pub moments: Vec<Moment>,
}

/// An operation that a begin has opened.
struct Open {
    side: Side,
    value: u32,
    steps: Vec<usize>,
}

impl History {
    /// Refused calls are nobody's, and unfinished operations have no place.
    pub fn of(settings: &Settings, events: &[Event]) -> Result<History, String> {
        let mut history = History {
            operations: Vec::new(),
            moments: Vec::new(),
        };
        let mut open = BTreeMap::new();
        for (at, event) in events.iter().enumerate() {
            let (worker, answer) = event.worker_and_answer();
            if answer.is_refusal() {
                continue;
            }
            if worker >= settings.workers || !history.follow(&mut open, at, event) {
                return Err(format!("call {at} may not be answered so: {event:?}"));
            }
        }
        history.moments.sort_by_key(|moment| moment.event);
        Ok(history)
    }

    /// "A begin not refused opens an operation. Its own steps are that
    /// worker's next steps not refused, through the one that answers 1 to 4."
    /// False for a begin of a busy worker or with an answer of a step, and for
    /// a step of an idle one.
    fn follow(&mut self, open: &mut BTreeMap<u32, Open>, at: usize, event: &Event) -> bool {
        match *event {
            Event::Begin {
                worker,
                side,
                value,
                answer,
            } => {
                let steps = Vec::new();
                let was_busy = open.insert(worker, Open { side, value, steps }).is_some();
                !was_busy && answer.number == MOVING
            }
            Event::Step {
                worker,
                answer,
                fed,
            } => {
                let Some(mut own) = open.remove(&worker) else {
                    return false;
                };
                own.steps.push(at);
                if answer.is_final() {
                    self.add(worker, own, (answer, fed));
                } else {
                    open.insert(worker, own);
                }
                true
            }
        }
    }

    fn add(&mut self, worker: u32, finished: Open, (answer, fed): (Answer, Fed)) {
        let Open { side, value, steps } = finished;
        let operation = self.operations.len();
        for (k, event) in steps.iter().copied().enumerate() {
            let last = k + 1 == steps.len();
            self.moments.push(Moment {
                event,
                operation,
                last,
            });
        }
        self.operations.push(Operation {
            worker,
            side,
            value,
            answer,
            fed,
        });
    }
}
