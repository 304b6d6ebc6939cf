//! What the cases have reached. A pass must have reached each outcome of each
//! phase of both kinds, each number that each call can answer, each corner
//! where the paper's text is about words that no make leads to, each sort of
//! settings that a script can have, each phase in which others may have stopped
//! beside a solo operation, and the most steps of one; each corner of a
//! dispatch, and the most steps of a stretch; a lost commit with each stride of
//! each width, and the refusals for the stride alone; each corner of the segments
//! that a distance goes through; each corner of the spacers that it does not count;
//! each corner of the failed commits, and each edition and length that decides; each
//! corner of windows with sizes of their own, each number of live ones, and each sentence
//! of their fitness; each corner of a move, two faults at once, and a moved pool that goes on in each phase;
//! by each program, run files of each end in pieces of each size, and each sort of
//! summary; each sort of listed take that comes nearest to the lister's stop; and an empty
//! of each kind that cannot stand at its last step.

mod by_origin;
mod collisions;
mod corners;
mod counts;
mod dispatch;
pub mod files;
mod moves;
pub mod numbers;
mod over_bound;
mod phases;
mod places;
mod scripts;
mod segments;
pub mod sizes;
mod solo;
mod spacers;
mod stretch;
mod strides;

use crate::moved::Trip;
use crate::take::Take;
use collisions::Collisions;
use corners::CORNERS;
use counts::Counts;
use dispatch::DISPATCHES;
use files::Files;
use moves::{move_name, Moves};
use numbers::{Numbers, DISPATCH, NUMBERS};
use over_bound::OverBound;
use phases::Phases;
use places::Places;
use scripts::SCRIPTS;
use second::phase::{self, Side, Stage};
use second::{in_edition, layout, Answer, Dispatched, Edition, Settings, MOVING, TAKEN, UNFIT};
use segments::Segments;
use sides::{Call, Dispatch};
use sizes::Sizes;
use solo::Solo;
use spacers::Spacers;
use stretch::Stretch;
use strides::Strides;

/// Where the words before a call come from.
#[derive(Clone, Copy)]
pub struct Origin {
    /// Nothing but calls since a make that was not refused.
    pub from_make: bool,
    /// How many percent of the values are spacers, where they are of one share.
    pub share: Option<u32>,
}

/// A call on a fit pool that was not refused, or only by its commit.
struct Seen<'a> {
    settings: Settings,
    /// The worker's words before and after.
    worker: &'a [u32],
    worker_after: &'a [u32],
    before: &'a [u32],
    after: &'a [u32],
    phase_after: u32,
    answer: Answer,
}

impl Seen<'_> {
    /// Before it; none for a begin.
    fn stage(&self) -> Option<(Side, Stage)> {
        phase::decode(self.worker[layout::PHASE])
    }

    /// A commit that only moves on has failed.
    fn failed_commit(&self) -> Option<Side> {
        match self.stage() {
            Some((side, Stage::Commit)) if self.answer.number == MOVING => Some(side),
            _ => None,
        }
    }
}

#[derive(Default)]
pub struct Coverage {
    pub calls: u64,
    pub dispatches: u64,
    /// Scripts that came to the worst distance.
    pub worst_scripts: u64,
    numbers: Numbers,
    phases: Phases,
    corners: Counts<{ CORNERS.len() }>,
    scripts: Counts<{ SCRIPTS.len() }>,
    pub solo: Solo,
    dispatch: Counts<{ DISPATCHES.len() }>,
    pub stretch: Stretch,
    pub strides: Strides,
    segments: Segments,
    pub spacers: Spacers,
    collisions: Collisions,
    pub sizes: Sizes,
    pub moves: Moves,
    pub files: Files,
    pub over_bound: OverBound,
    pub places: Places,
}

impl Coverage {
    /// The words are those before and after the call.
    pub fn record(
        &mut self,
        call: Call,
        answer: Answer,
        [before, after]: [&[u32]; 2],
        origin: Origin,
    ) {
        self.calls += 1;
        let name = numbers::name(call);
        self.numbers.record(name, answer.number);
        let worker = match call {
            Call::Make(settings) => {
                self.strides.record_make(&settings, answer.number);
                self.collisions.record_make(settings, before, answer.number);
                return;
            }
            Call::SetSize(size) => {
                self.collisions.record_call(name, before, answer.number);
                self.sizes.record_call(size, answer.number, before, origin);
                return;
            }
            Call::BeginPut { worker, .. } | Call::BeginTake { worker } | Call::Step { worker } => {
                worker
            }
        };
        self.collisions.record_call(name, before, answer.number);
        if answer.number == UNFIT && fitness(before) == UNFIT {
            self.strides.record_unfit(before);
            return;
        }
        if answer.is_refusal() && answer.number != UNFIT {
            return;
        }
        let settings = Settings::of_words(before);
        let at = settings.workers_at() + layout::WORKER_WORDS * worker as usize;
        let seen = Seen {
            settings,
            worker: &before[at..at + layout::WORKER_WORDS],
            worker_after: &after[at..at + layout::WORKER_WORDS],
            before,
            after,
            phase_after: after[at + layout::PHASE],
            answer,
        };
        self.phases.record(&seen);
        self.strides.record(&seen);
        self.collisions.record(&seen, origin);
        self.sizes.record(&seen, origin);
        self.corners.add(CORNERS.map(|(_, reached)| reached(&seen)));
        if answer.number == TAKEN {
            let take = Take::of(before, &answer);
            self.segments.record(&take, origin);
            self.spacers.record(&take, origin);
        }
    }

    pub fn record_dispatch(
        &mut self,
        dispatch: Dispatch,
        dispatched: Dispatched,
        made: &[(u32, Answer)],
        before: &[u32],
    ) {
        self.dispatches += 1;
        let (number, _) = dispatched.returned();
        self.numbers.record(DISPATCH, number);
        self.collisions.record_call(DISPATCH, before, number);
        let seen = dispatch::Seen {
            dispatch,
            dispatched,
            made,
            before,
        };
        let reached = DISPATCHES.map(|(_, reached)| reached(&seen));
        self.dispatch.add(reached);
    }

    /// The target's words are those before it.
    pub fn record_move(&mut self, trip: Trip, from: &[u32], to: &[u32], number: u32) {
        self.numbers.record(move_name(trip.which), number);
        self.moves.record(trip, from, to, number);
    }

    /// A script that came to its end.
    pub fn record_script(&mut self, settings: &Settings) {
        self.scripts.add(SCRIPTS.map(|(_, has)| has(settings)));
    }

    /// Prints the counts; what is missing comes back.
    pub fn report(&self) -> Vec<String> {
        let mut missing = self.phases.report();
        missing.extend(self.numbers.report(&NUMBERS));
        missing.extend(self.corners.report(CORNERS));
        missing.extend(self.scripts.report(SCRIPTS));
        missing.extend(self.solo.report());
        missing.extend(self.dispatch.report(DISPATCHES));
        missing.extend(self.stretch.report());
        missing.extend(self.strides.report());
        missing.extend(self.segments.report());
        missing.extend(self.spacers.report());
        missing.extend(self.collisions.report());
        missing.extend(self.sizes.report());
        missing.extend(self.moves.report());
        missing.extend(self.files.report());
        missing.extend(self.over_bound.report());
        missing.extend(self.places.report());
        missing
    }
}

/// 21 or 23; 24 for a fit pool, which has no worker of this number.
fn fitness(words: &[u32]) -> u32 {
    fitness_in(Edition::CURRENT, words)
}

fn fitness_in(edition: Edition, words: &[u32]) -> u32 {
    in_edition::step(edition, &mut words.to_vec(), u32::MAX).number
}
