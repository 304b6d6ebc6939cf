//! A run file replayed: its opening words make a pool, and the words after them
//! are calls on it, through the end word. It reads as it goes; besides its buffer
//! it keeps one pool. What is printed of it is each printing's own.

use super::decode::{self, Call};
use super::reader::Words;
use super::{Fault, Stop};
use crate::answer::{Answer, MOVING, OFF_LIMITS};
use crate::bounds::{distance_bound, seen_size};
use crate::calls::{begin_put, begin_take, make, set_size, step};
use crate::pool::edition::Edition;
use crate::pool::settings::{Settings, QUEUE};
use crate::pool::size::Size;
use crate::pool::Pool;
use std::io::Read;

/// A call of the file: where it stands, its worker, or 0, and its answer.
pub(super) struct Called {
    pub position: u64,
    pub worker: u32,
    pub answer: Answer,
    /// Demand 3's, should it be a take: by the window seen before it.
    pub bound: u32,
    /// One that it set.
    pub size: Option<Size>,
}

pub(super) struct Replay<R: Read> {
    edition: Edition,
    words: Words<R>,
    pub settings: Settings,
    lent: Vec<u32>,
}

impl<R: Read> Replay<R> {
    /// Reads the opening words and makes their pool. "22 is printed at position 1."
    pub fn open(edition: Edition, input: R) -> Result<Replay<R>, Stop> {
        let mut words = Words::new(input);
        let shape = words.next(decode::first)?;
        let settings = words.next(|word| decode::second(shape, word))?;
        if !settings.within_limits_in(edition) {
            return Err(Stop::At(Fault {
                position: 1,
                number: OFF_LIMITS,
            }));
        }
        let mut lent = vec![0; settings.needed_words_in(edition)];
        make(edition, &mut lent, settings);
        Ok(Replay {
            edition,
            words,
            settings,
            lent,
        })
    }

    /// Makes the next call; none after an end word that is the file's last.
    pub fn next_call(&mut self) -> Result<Option<Called>, Stop> {
        let position = self.words.position;
        let edition = self.edition;
        let mut size = None;
        let call = self.words.next(|word| decode::call(edition, word))?;
        let bound = match call {
            Call::Step { worker } => self.bound_of(worker),
            _ => distance_bound(&self.settings),
        };
        let lent = &mut self.lent;
        let (worker, answer) = match call {
            Call::BeginPut { worker, value } => (worker, begin_put(edition, lent, worker, value)),
            Call::BeginTake { worker } => (worker, begin_take(edition, lent, worker)),
            Call::Step { worker } => (worker, step(edition, lent, worker)),
            Call::SetSize(next) => {
                let answer = set_size(lent, next);
                size = Some(next).filter(|_| answer.number == MOVING);
                (0, answer)
            }
            Call::End => {
                self.words.nothing_more()?;
                return Ok(None);
            }
        };
        Ok(Some(Called {
            position,
            worker,
            answer,
            bound,
            size,
        }))
    }

    /// K8: a queue's take's, by its own window's sizes.
    fn bound_of(&mut self, worker: u32) -> u32 {
        let settings = self.settings;
        let takes = settings.kind == QUEUE && worker < settings.workers;
        let seen = takes.then(|| seen_size(&self.pool(), worker));
        // No other worker's step is a take.
        match seen.filter(|size| size.within_limits(&settings)) {
            Some(size) => size.distance_bound(),
            None => distance_bound(&settings),
        }
    }

    /// How many words were read.
    pub fn words_read(&self) -> u64 {
        self.words.position
    }

    /// As the calls so far leave it.
    pub fn pool(&mut self) -> Pool<'_> {
        Pool {
            words: &mut self.lent,
            settings: self.settings,
            edition: self.edition,
        }
    }
}
