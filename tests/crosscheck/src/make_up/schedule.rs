//! The calls of a run: whose turn it is, and what that worker does.

use super::junk;
use super::sizes::Changes;
use super::turns::Turns;
use super::values::Values;
use super::workers::Workers;
use crate::rng::Rng;
use second::{Edition, Settings, Size};
use sides::Call;

/// Values and worker numbers that a run may have.
#[derive(Clone, Copy)]
pub enum Numbers {
    Any,
    /// Those that a run file can hold: 22 and 6 bits, and of a size 5 and 7.
    OfRunFile,
}

pub struct Schedule {
    settings: Settings,
    numbers: Numbers,
    values: Values,
    turns: Turns,
    put_percent: u32,
    /// How many calls a mood for puts or takes lasts, about.
    mood: u32,
    /// Calls out of turn, some of them to be refused.
    odd_percent: u32,
    sizes: Changes,
}

impl Schedule {
    pub fn new(rng: &mut Rng, settings: Settings, numbers: Numbers, values: Values) -> Schedule {
        let workers = Workers {
            settings: &settings,
            words: &[],
        };
        // One-sided moods last until a pool is full or empty.
        let to_fill = 5 * settings.width * settings.rows;
        Schedule {
            settings,
            numbers,
            values,
            turns: Turns::new(rng, &workers),
            put_percent: rng.pick(&[50, 90, 100]),
            mood: rng.pick(&[20, to_fill / 2 + 1, to_fill * 2]),
            odd_percent: rng.pick(&[0, 1, 4]),
            sizes: Changes::new(rng),
        }
    }

    /// The same, and no size is ever set.
    pub fn without_sizes(
        rng: &mut Rng,
        settings: Settings,
        numbers: Numbers,
        values: Values,
    ) -> Schedule {
        Schedule {
            sizes: Changes::NONE,
            ..Schedule::new(rng, settings, numbers, values)
        }
    }

    /// The next call on a pool with these words.
    pub fn next(&mut self, rng: &mut Rng, words: &[u32]) -> Call {
        if rng.below(self.mood) == 0 {
            self.put_percent = rng.pick(&[0, 10, 50, 90, 100]);
        }
        if let Some(size) = self.next_size(rng, words) {
            return Call::SetSize(size);
        }
        if rng.chance(self.odd_percent) {
            return self.any_call(rng);
        }
        let workers = Workers {
            settings: &self.settings,
            words,
        };
        let (worker, put_percent) = self.turns.next(rng, &workers);
        if workers.is_idle(worker) {
            self.begin(rng, worker, put_percent.unwrap_or(self.put_percent))
        } else {
            Call::Step { worker }
        }
    }

    /// Only edition 2 has the call.
    fn next_size(&self, rng: &mut Rng, words: &[u32]) -> Option<Size> {
        Edition::of_words(words).filter(|edition| edition.has_sizes())?;
        let Size { width, depth } = self.sizes.next(rng, &self.settings)?;
        Some(match self.numbers {
            Numbers::Any => Size { width, depth },
            Numbers::OfRunFile => Size {
                width: width % 32,
                depth: depth % 128,
            },
        })
    }

    /// A call by which no worker steps: a begin in place of a busy one's step.
    pub fn no_step(&self, rng: &mut Rng, words: &[u32]) -> Call {
        if let Some(size) = self.next_size(rng, words) {
            return Call::SetSize(size);
        }
        let workers = Workers {
            settings: &self.settings,
            words,
        };
        match self.any_call(rng) {
            Call::Step { worker } if worker < workers.number() && !workers.is_idle(worker) => {
                self.begin(rng, worker, self.put_percent)
            }
            call => call,
        }
    }

    fn begin(&self, rng: &mut Rng, worker: u32, put_percent: u32) -> Call {
        if !rng.chance(put_percent) {
            return Call::BeginTake { worker };
        }
        let value = match self.numbers {
            Numbers::Any => self.values.word(rng),
            Numbers::OfRunFile => self.values.of_run_file(rng),
        };
        Call::BeginPut { worker, value }
    }

    /// A call that may be refused: of a busy, an idle or no worker.
    fn any_call(&self, rng: &mut Rng) -> Call {
        let worker = match self.numbers {
            Numbers::Any => junk::worker(rng, self.settings.workers),
            Numbers::OfRunFile => junk::worker(rng, self.settings.workers) % 64,
        };
        if rng.chance(50) {
            Call::Step { worker }
        } else {
            self.begin(rng, worker, self.put_percent)
        }
    }
}
