//! Workers that are all busy all the time, on the compiled library: whenever an
//! operation ends, its worker begins the next. The failed commits are read where a
//! site reads them, on the workers' cards.

use crate::busy::MANY;
use crate::rng::Rng;
use crate::workload::held;
use compiled::{begin_put_into, begin_take_into, dispatch_into, step_into};
use compiled::{DispatchFields, Fields};
use second::layout::{FAILED_COMMITS, STEPS_COUNTED, WORKER_WORDS};
use second::{Settings, MOVING, PUT, TAKEN};

/// Whose step is next.
#[derive(Clone, Copy)]
pub enum Order {
    /// All in turn, by number.
    RoundRobin,
    /// A worker steps at most so many times, how often is random, and then another,
    /// any.
    Bursts { most: u32 },
}

/// What a worker begins next.
#[derive(Clone, Copy, PartialEq)]
pub enum Mix {
    /// A put with the chance of a free cell among all, else a take: the pool stays
    /// about half full.
    Random,
    /// A take after a put, a put after a take.
    ByTurns,
}

/// For each operation that ended.
#[derive(Clone, Copy)]
pub struct Figures {
    pub failed: f64,
    pub steps: f64,
}

/// From a pool that is half full, until so many operations have ended. The case chooses
/// the random numbers.
pub fn figures(settings: &Settings, order: Order, mix: Mix, operations: u32, case: u64) -> Figures {
    let mut crew = Crew::new(settings, mix, case);
    let before = crew.counts();
    match order {
        Order::RoundRobin => crew.round_robin(operations),
        Order::Bursts { most } => crew.bursts(most, operations),
    }
    let [failed, steps] = crew.counts();
    let each = |after: u32, before| f64::from(after.wrapping_sub(before)) / f64::from(crew.ended);
    Figures {
        failed: each(failed, before[0]),
        steps: each(steps, before[1]),
    }
}

struct Crew {
    settings: Settings,
    mix: Mix,
    words: Vec<u32>,
    held: u32,
    ended: u32,
    rng: Rng,
    fields: Fields,
}

impl Crew {
    fn new(settings: &Settings, mix: Mix, case: u64) -> Crew {
        let items = settings.width * settings.rows / 2;
        let mut crew = Crew {
            settings: *settings,
            mix,
            words: held(settings, items),
            held: items,
            ended: 0,
            rng: Rng::new(1, case),
            fields: Fields::default(),
        };
        for worker in 0..settings.workers {
            crew.begin(worker, worker % 2 == 0);
        }
        crew
    }

    /// All failed commits, and the steps.
    fn counts(&self) -> [u32; 2] {
        let settings = &self.settings;
        let cards = &self.words[settings.workers_at()..settings.cells_at()];
        let failed = cards
            .chunks_exact(WORKER_WORDS)
            .map(|card| card[FAILED_COMMITS]);
        [failed.fold(0, u32::wrapping_add), self.words[STEPS_COUNTED]]
    }

    fn round_robin(&mut self, operations: u32) {
        let mut fields = DispatchFields::default();
        let mut turn = 0;
        while self.ended < operations {
            let number = dispatch_into(&mut self.words, turn, MANY, &mut fields);
            let worker = fields[5];
            self.go_on(worker, number);
            turn = (worker + 1) % self.settings.workers;
        }
    }

    fn bursts(&mut self, most: u32, operations: u32) {
        let workers = self.settings.workers;
        let mut worker = 0;
        while self.ended < operations {
            for _ in 0..self.rng.between(1, most) {
                let number = step_into(&mut self.words, worker, &mut self.fields);
                if number != MOVING {
                    self.go_on(worker, number);
                }
            }
            worker = (worker + self.rng.between(1, workers - 1)) % workers;
        }
    }

    /// The next operation of a worker that was given this answer.
    fn go_on(&mut self, worker: u32, number: u32) {
        match number {
            PUT => self.held += 1,
            TAKEN => self.held -= 1,
            _ => panic!("answered {number}"),
        }
        self.ended += 1;
        let put = match self.mix {
            Mix::Random => self.rng.below(self.settings.width * self.settings.rows) >= self.held,
            Mix::ByTurns => number == TAKEN,
        };
        self.begin(worker, put);
    }

    fn begin(&mut self, worker: u32, put: bool) {
        let (words, fields) = (&mut self.words, &mut self.fields);
        let number = if put {
            begin_put_into(words, worker, 1, fields)
        } else {
            begin_take_into(words, worker, fields)
        };
        assert!(number == MOVING, "answered {number}");
    }
}
