//! The calls of a run from make as events of demand 3's list.

use crate::make_up::workers::edition;
use second::phase::Side;
use second::{Answer, Event, Fed, PUT, TAKEN};
use sides::Call;
use std::collections::BTreeMap;

/// With the words just before the call. A size call is no operation, and nothing is fed of
/// it: what it comes to is fed with later answers.
pub fn event(before: &[u32], call: Call, answer: Answer) -> Option<Event> {
    let begin = |worker, side, value| Event::Begin {
        worker,
        side,
        value,
        answer,
    };
    match call {
        Call::BeginPut { worker, value } => Some(begin(worker, Side::Put, value)),
        Call::BeginTake { worker } => Some(begin(worker, Side::Take, 0)),
        Call::Step { worker } => Some(step(before, worker, answer)),
        Call::SetSize(_) => None,
        Call::Make(_) => unreachable!("a run has one make, its first call"),
    }
}

pub fn step(before: &[u32], worker: u32, answer: Answer) -> Event {
    Event::Step {
        worker,
        answer,
        fed: Fed::of(edition(before), before, worker, &answer),
    }
}

/// The puts and the takes alone, each begun right before its last step: so nothing
/// overlaps, and there is one order for them.
pub fn at_last_steps(events: &[Event]) -> Vec<Event> {
    let mut begun = BTreeMap::new();
    let mut at_last_steps = Vec::new();
    for event in events {
        match *event {
            Event::Begin { worker, answer, .. } if !answer.is_refusal() => {
                begun.insert(worker, *event);
            }
            Event::Step { worker, answer, .. } if [PUT, TAKEN].contains(&answer.number) => {
                at_last_steps.extend(begun.remove(&worker));
                at_last_steps.push(*event);
            }
            _ => {}
        }
    }
    at_last_steps
}
