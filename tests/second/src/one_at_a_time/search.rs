//! The search for linearization points.
//!
//! It walks the steps of finished operations in the order of the run, and at
//! each one the operation, if it has no place yet, is placed here or later.
//! Both are tried, so nothing about where operations belong is assumed.
//!
//! - A put or a take that changed the list is tried later first, which puts it
//!   at its last step unless that fails; then the search goes back to the
//!   nearest such choice and places that operation earlier.
//! - An empty or a full changes nothing for others, so that the first of its
//!   steps where it is allowed serves as well as any: no choice is needed.
//! - Two operations never share a step: a step is one worker's.
//!
//! What can follow depends only on the step reached and on which operations
//! in progress are placed: the list is then the same, since a put's stamp is
//! in its answer. A choice that failed both ways is remembered by these two.

use super::history::{History, Moment};
use super::sequential::{Sequential, Undo};
use std::collections::HashSet;

/// The search gives up after this many visits to steps beyond the first walk,
/// and says so.
const PATIENCE: usize = 2_000_000;
/// The same where one operation is kept to its last step.
const SHORT_PATIENCE: usize = 200_000;

/// Where the operations stand.
pub(super) struct Found {
    /// The chosen step of each finished operation, as its place in the run.
    pub events: Vec<usize>,
    /// How often the search had to go back.
    pub returns: u64,
}

/// Why there are no places.
pub(super) struct NoPlaces {
    /// Every choice was tried.
    pub decided: bool,
    pub why: String,
}

/// What was decided at a moment, to go back over it.
enum Decision {
    /// A choice: placed later, not yet tried here.
    Later,
    /// Placed here. If it was the second way of a choice, no third is left.
    Here { undo: Undo, second_way: bool },
    /// The last step of an operation placed earlier.
    Passed,
}

pub(super) struct Search<'a> {
    history: &'a History,
    list: Sequential,
    /// The moment of each operation's place, once it has one.
    place: Vec<Option<usize>>,
    /// Workers whose operation in progress is placed, a bit each.
    early: u64,
    trail: Vec<(usize, Decision)>,
    failed: HashSet<(usize, u64)>,
    returns: u64,
    furthest: usize,
    /// An operation that may stand at its last step alone.
    kept_last: Option<usize>,
    patience: usize,
}

impl<'a> Search<'a> {
    /// The list has no items yet.
    pub fn new(list: Sequential, history: &'a History) -> Search<'a> {
        Search {
            history,
            list,
            place: vec![None; history.operations.len()],
            early: 0,
            trail: Vec::new(),
            failed: HashSet::new(),
            returns: 0,
            furthest: 0,
            kept_last: None,
            patience: PATIENCE,
        }
    }

    /// With an empty or a full at its last step, if it can be there at all.
    pub fn keep_last(mut self, operation: usize) -> Search<'a> {
        self.kept_last = Some(operation);
        self.patience = SHORT_PATIENCE;
        self
    }

    pub fn run(mut self) -> Result<Found, NoPlaces> {
        let mut at = 0;
        let mut visits = 0;
        while at < self.history.moments.len() {
            visits += 1;
            if visits > self.patience + self.history.moments.len() {
                return Err(self.no_places(false, "undecided: the search gave up near"));
            }
            if self.visit(at) {
                at += 1;
                continue;
            }
            self.furthest = self.furthest.max(at);
            self.returns += 1;
            match self.go_back() {
                Some(chosen) => at = chosen + 1,
                None => return Err(self.no_places(true, "no place for")),
            }
        }
        let moments = &self.history.moments;
        let places = self.place.iter();
        let events = places.map(|place| moments[place.expect("all are passed")].event);
        Ok(Found {
            events: events.collect(),
            returns: self.returns,
        })
    }

    /// Decides at a moment; false if no operation order goes on from here.
    fn visit(&mut self, at: usize) -> bool {
        let moment = &self.history.moments[at];
        let operation = &self.history.operations[moment.operation];
        if self.place[moment.operation].is_some() {
            if moment.last {
                self.early &= !self.bit(moment);
                self.trail.push((at, Decision::Passed));
            }
            return true;
        }
        if self.kept_last == Some(moment.operation) && !moment.last {
            return true;
        }
        if !operation.changes_nothing() && !moment.last {
            if self.failed.contains(&(at, self.early)) {
                return false;
            }
            self.trail.push((at, Decision::Later));
            return true;
        }
        self.place_here(at, false) || !moment.last
    }

    fn place_here(&mut self, at: usize, second_way: bool) -> bool {
        let moment = &self.history.moments[at];
        let operation = &self.history.operations[moment.operation];
        let Some(undo) = self.list.feed(operation) else {
            return false;
        };
        self.place[moment.operation] = Some(at);
        if !moment.last {
            self.early |= self.bit(moment);
        }
        self.trail.push((at, Decision::Here { undo, second_way }));
        true
    }

    /// Takes decisions back to the nearest choice whose second way is allowed,
    /// goes that way, and says at which moment.
    fn go_back(&mut self) -> Option<usize> {
        while let Some((at, decision)) = self.trail.pop() {
            let moment = &self.history.moments[at];
            match decision {
                Decision::Passed => self.early |= self.bit(moment),
                Decision::Here { undo, second_way } => {
                    self.list.undo(undo);
                    self.place[moment.operation] = None;
                    self.early &= !self.bit(moment);
                    if second_way {
                        self.failed.insert((at, self.early));
                    }
                }
                Decision::Later => {
                    if self.place_here(at, true) {
                        return Some(at);
                    }
                    self.failed.insert((at, self.early));
                }
            }
        }
        None
    }

    fn bit(&self, moment: &Moment) -> u64 {
        1 << self.history.operations[moment.operation].worker
    }

    fn no_places(&self, decided: bool, what: &str) -> NoPlaces {
        let moment = &self.history.moments[self.furthest];
        let operation = &self.history.operations[moment.operation];
        let at = moment.event;
        NoPlaces {
            decided,
            why: format!("{what} {operation:?}, finished or stopped at call {at}"),
        }
    }
}
