//! Paper 01, One at a time, with demand 3: a run from make is right if each of
//! its finished operations can be placed at one of its own steps, its
//! linearization point, so that the operations in the order of these steps are
//! answered alike by the sequential specification (the one-at-a-time list).
//! Nothing of the pool's words is used here, only the calls and their answers, and
//! what K8 feeds with them.

mod fed;
mod history;
mod search;
mod sequential;

pub use fed::Fed;
pub use history::Event;

use crate::pool::settings::Settings;
use history::History;
use search::{Found, Search};
use sequential::Sequential;

/// Where the operations stand.
pub struct Placed {
    /// The chosen step of each finished operation, as its place in the run.
    pub events: Vec<usize>,
    /// How often the search had to go back: 0 exactly if the puts and takes can
    /// all stand at their last steps.
    pub returns: u64,
    /// The empties and fulls, in the order in which they finished.
    pub unchanging: Vec<Unchanging>,
}

/// An empty or a full.
pub struct Unchanging {
    pub number: u32,
    pub at_last: AtLast,
}

/// Whether some choice of steps, for all operations, has it at its last step.
#[derive(Clone, Copy, Debug, PartialEq, Eq)]
pub enum AtLast {
    Can,
    Cannot,
    /// The search gave up.
    Undecided,
}

/// The linearization points of a run in which no take passes over more items
/// than `most_passed`, or why there are none. Demand 3's own claim has the
/// number `distance_bound`; a lower one makes a stronger claim. A take that is fed its
/// window's sizes may not pass over more than their number either. Spacers are
/// passed over like all items, and only the distance does not count them (K4).
pub fn one_at_a_time(
    settings: &Settings,
    most_passed: u32,
    events: &[Event],
) -> Result<Placed, String> {
    let history = History::of(settings, events)?;
    let list = || Sequential::new(settings, most_passed);
    let found = Search::new(list(), &history).run().map_err(|no| no.why)?;
    let unchanging = replay(list, &history, &found)?;
    let Found { events, returns } = found;
    Ok(Placed {
        events,
        returns,
        unchanging,
    })
}

/// The search need not be believed: its outcome is replayed from the start.
fn replay(
    list: impl Fn() -> Sequential,
    history: &History,
    found: &Found,
) -> Result<Vec<Unchanging>, String> {
    let mut replayed = list();
    let mut fed = 0;
    let mut unchanging = Vec::new();
    for moment in &history.moments {
        let operation = &history.operations[moment.operation];
        if found.events[moment.operation] == moment.event {
            replayed.feed(operation).ok_or(format!(
                "the search placed {operation:?} where it is not allowed"
            ))?;
            fed += 1;
        }
        if moment.last && operation.changes_nothing() {
            // Nobody's place depends on where it stands.
            let at_last = match replayed.allows(operation) {
                true => AtLast::Can,
                false => with_others_moved(list(), history, moment.operation),
            };
            let number = operation.answer.number;
            unchanging.push(Unchanging { number, at_last });
        }
    }
    if fed == history.operations.len() {
        Ok(unchanging)
    } else {
        Err(format!(
            "the search placed {fed} of {}",
            history.operations.len()
        ))
    }
}

/// An empty or a full that is not allowed at its last step where the others
/// stand: whether it is with the others elsewhere.
fn with_others_moved(list: Sequential, history: &History, operation: usize) -> AtLast {
    match Search::new(list, history).keep_last(operation).run() {
        Ok(_) => AtLast::Can,
        Err(no) if no.decided => AtLast::Cannot,
        Err(_) => AtLast::Undecided,
    }
}
