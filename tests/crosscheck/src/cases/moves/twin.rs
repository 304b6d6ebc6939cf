//! A pool in edition 0, beside the same one in edition 1: the same calls get the same
//! answers, and the words correspond. Only the second implementation has these two.

use super::met::Met;
use crate::coverage::numbers;
use crate::failure::Failure;
use crate::make_up::junk;
use crate::make_up::workers::set_failed_commits;
use crate::moved::{moved, Moved, Trip};
use crate::rng::Rng;
use crate::side_by_side::Checks;
use second::{layout, Answer, Dispatched, Edition, Settings, MOVING, UNFIT};
use sides::{Call, Dispatch, Move, SECOND_IN_EDITION_0};
use std::fmt::Debug;

pub struct Twin {
    words: Vec<u32>,
    settings: Settings,
    from_make: bool,
    /// The last move.
    moved: Option<Move>,
    met: Met,
}

impl Twin {
    /// By edition 0's make.
    pub fn made(rng: &mut Rng, settings: Settings) -> Result<Twin, Failure> {
        let len = settings.needed_words_in(Edition::Zero) + rng.below(2) as usize;
        let mut words = junk::words(rng, len);
        let answer = SECOND_IN_EDITION_0.call(&mut words, Call::Make(settings));
        let twin = Twin {
            words,
            settings,
            from_make: true,
            moved: None,
            met: Met::default(),
        };
        match answer.number {
            MOVING => Ok(twin),
            _ => Err(twin.said(format!("make is answered {answer:?}"))),
        }
    }

    /// In these words, after a move.
    pub fn of(trip: Trip, words: Vec<u32>) -> Twin {
        let mut twin = Twin {
            words,
            settings: trip.settings,
            from_make: trip.from_make,
            moved: None,
            met: Met::default(),
        };
        twin.has_moved(trip.which);
        twin
    }

    /// It, or the one in edition 1, goes on in words that a move has left.
    pub fn has_moved(&mut self, which: Move) {
        self.met.has_moved(self.trip(which), &self.words);
        self.moved = Some(which);
    }

    pub fn go_on_in(&mut self, words: Vec<u32>) {
        self.words = words;
    }

    /// A call that was answered so in edition 1.
    pub fn follow(
        &mut self,
        call: Call,
        answer: Answer,
        checks: &mut Checks,
    ) -> Result<(), Failure> {
        let ours = SECOND_IN_EDITION_0.call(&mut self.words, call);
        self.same(call, ours, answer)?;
        let finished = match call {
            Call::Step { worker } if answer.is_final() => Some(worker),
            _ => None,
        };
        let name = numbers::name(call);
        self.met.note(name, answer.number, finished, checks);
        Ok(())
    }

    pub fn follow_dispatch(
        &mut self,
        dispatch: Dispatch,
        dispatched: Dispatched,
        checks: &mut Checks,
    ) -> Result<(), Failure> {
        let ours = SECOND_IN_EDITION_0.dispatch(&mut self.words, dispatch);
        let theirs = dispatched.returned();
        self.same(dispatch, ours, theirs)?;
        let finished = match dispatched {
            Dispatched::Finished { worker, .. } => Some(worker),
            _ => None,
        };
        let name = numbers::DISPATCH;
        self.met.note(name, theirs.0, finished, checks);
        Ok(())
    }

    fn same<A: PartialEq + Debug>(
        &self,
        call: impl Debug,
        ours: A,
        theirs: A,
    ) -> Result<(), Failure> {
        if ours == theirs {
            return Ok(());
        }
        Err(self.said(format!(
            "{call:?} is answered {ours:?} in edition 0 and {theirs:?} in edition 1, after {:?}; \
             edition 0 is left with {:?}",
            self.moved, self.words
        )))
    }

    fn trip(&self, which: Move) -> Trip {
        Trip {
            which,
            settings: self.settings,
            from_make: self.from_make,
        }
    }

    /// All words that both editions have are equal. Moved on, these are those of edition
    /// 1 but for its ninth ones; those moved back are these. The words of both moves, or
    /// none where a call has left an image that is not fit, its items put come round.
    pub fn corresponds(
        &self,
        rng: &mut Rng,
        one: &[u32],
        checks: &mut Checks,
    ) -> Result<Option<[Vec<u32>; 2]>, Failure> {
        let [ours, theirs] = [(Edition::Zero, &self.words[..]), (Edition::One, one)]
            .map(|(edition, words)| self.in_common(edition, words));
        if ours != theirs {
            return Err(self.said(format!("the pools part: {ours:?}, {theirs:?}")));
        }
        let mut without = one.to_vec();
        set_failed_commits(&mut without, || 0);
        let (on_number, on) = self.moved(rng, Move::From0To1, &self.words, &without, checks)?;
        let (number, back) = self.moved(rng, Move::From1To0, one, &self.words, checks)?;
        match [on_number, number] {
            [MOVING, MOVING] => Ok(Some([on, back])),
            [UNFIT, UNFIT] if !self.from_make => Ok(None),
            numbers => Err(self.said(format!("the moves are answered {numbers:?}"))),
        }
    }

    /// A move that, if it is not refused, comes to these needed words.
    fn moved(
        &self,
        rng: &mut Rng,
        which: Move,
        from: &[u32],
        expected: &[u32],
        checks: &mut Checks,
    ) -> Result<Moved, Failure> {
        let trip = self.trip(which);
        let (number, to) = moved_to_junk(rng, trip, from, checks)?;
        let needed = trip.needed()[1];
        if number == MOVING && to[..needed] != expected[..needed] {
            let what = format!("by {which:?} it is {to:?}, not {expected:?}");
            return Err(self.said(what));
        }
        Ok((number, to))
    }

    /// The words that do not go by the edition: neither word 11 nor the ninth ones.
    fn in_common(&self, edition: Edition, words: &[u32]) -> Vec<u32> {
        let settings = &self.settings;
        let (workers_at, cells_at) = (settings.workers_at(), settings.cells_at_in(edition));
        let workers = words[workers_at..cells_at].chunks(edition.worker_words());
        let mut common = words[..workers_at].to_vec();
        common.remove(layout::EDITION);
        common.extend(workers.flat_map(|worker| &worker[..layout::FAILED_COMMITS]));
        common.extend(&words[settings.cells_in(edition)]);
        common
    }

    fn said(&self, what: String) -> Failure {
        Failure::Said(format!("moved pool with {:?}: {what}", self.settings))
    }
}

/// Into an area that held junk, with enough words.
pub fn moved_to_junk(
    rng: &mut Rng,
    trip: Trip,
    from: &[u32],
    checks: &mut Checks,
) -> Result<Moved, Failure> {
    let len = trip.needed()[1] + rng.pick(&[0, 0, 1, 7]);
    let to = junk::words(rng, len);
    moved(trip, from, &to, checks)
}
