//! A search on the compiled library, its end, and the drain.

use crate::rng::Rng;
use compiled::{begin_put_into, begin_take_into, make_into, set_size, step_into, Fields};
use second::layout::{FAILED_COMMITS, PHASE, PUT_WINDOW, TAKE_WINDOW, WORKER_WORDS};
use second::{Settings, Size, EMPTY, FULL, MOVING, PUT, TAKEN};

/// Items that a search holds, about, and that its end does.
pub const HELD: u32 = 256;
pub const HELD_AT_THE_END: u32 = 16;
/// Of the search, and after the change.
pub const OPERATIONS: u64 = 50_000;

/// Where an answer's distance stands among its fields.
const DISTANCE: usize = 4;

/// Whose step is next, of the busy workers.
#[derive(Clone, Copy)]
pub enum Order {
    RoundRobin,
    AtRandom,
}

#[derive(Clone, Copy)]
pub enum Part {
    Search,
    /// Until all is taken that was held where the search ended.
    Change,
    After,
}

/// What a part comes to.
#[derive(Default)]
pub struct Counts {
    pub ended: u64,
    pub steps: u64,
    pub failed: u64,
    pub fulls: u64,
    takes: u64,
    distances: u64,
    pub greatest: u32,
}

impl Counts {
    pub fn mean_distance(&self) -> f64 {
        self.distances as f64 / self.takes as f64
    }

    pub fn per_operation(&self, count: u64) -> f64 {
        count as f64 / self.ended as f64
    }
}

pub struct Ended {
    pub parts: [Counts; 3],
    pub steps_of_a_take: f64,
    pub steps_of_the_empty: u32,
}

/// With so many workers at its end, and this size set there.
pub fn search(settings: &Settings, order: Order, at_the_end: u32, size: Option<Size>) -> Ended {
    let mut run = Run::new(settings, order);
    run.go_on(Part::Search, HELD, settings.workers, |run, counts| {
        counts.ended < OPERATIONS || run.held == 0
    });
    if let Some(size) = size {
        assert!(set_size(&mut run.words, size) == MOVING);
    }
    let top = run.words[PUT_WINDOW];
    run.go_on(Part::Change, HELD_AT_THE_END, at_the_end, |run, _| {
        run.words[TAKE_WINDOW] <= top
    });
    run.go_on(Part::After, HELD_AT_THE_END, at_the_end, |_, counts| {
        counts.ended < OPERATIONS
    });
    run.drain()
}

struct Run {
    settings: Settings,
    order: Order,
    words: Vec<u32>,
    rng: Rng,
    fields: Fields,
    held: u32,
    /// Whose step was last.
    turn: u32,
    parts: [Counts; 3],
}

impl Run {
    fn new(settings: &Settings, order: Order) -> Run {
        let mut words = vec![0; settings.needed_words()];
        let mut fields = Fields::default();
        assert!(make_into(&mut words, *settings, &mut fields) == MOVING);
        Run {
            settings: *settings,
            order,
            words,
            rng: Rng::new(1, 1),
            fields,
            held: 0,
            turn: 0,
            parts: Default::default(),
        }
    }

    /// Steps while it is so; workers below the number begin again, about so many items held.
    fn go_on(
        &mut self,
        part: Part,
        held: u32,
        workers: u32,
        is_so: impl Fn(&Run, &Counts) -> bool,
    ) {
        for worker in (0..workers)
            .filter(|worker| self.is_idle(*worker))
            .collect::<Vec<_>>()
        {
            self.begin(worker, held);
        }
        let failed = self.failed_commits();
        let mut counts = Counts::default();
        while is_so(self, &counts) {
            let worker = self.next_busy();
            counts.steps += 1;
            if self.step(worker, &mut counts) && worker < workers {
                self.begin(worker, held);
            }
        }
        counts.failed = u64::from(self.failed_commits() - failed);
        self.parts[part as usize] = counts;
    }

    /// True if it ended the worker's operation.
    fn step(&mut self, worker: u32, counts: &mut Counts) -> bool {
        let number = step_into(&mut self.words, worker, &mut self.fields);
        match number {
            MOVING => return false,
            PUT => self.held += 1,
            TAKEN => {
                let distance = self.fields[DISTANCE];
                self.held -= 1;
                counts.takes += 1;
                counts.distances += u64::from(distance);
                counts.greatest = counts.greatest.max(distance);
            }
            FULL => counts.fulls += 1,
            EMPTY => {}
            _ => panic!("answered {number}"),
        }
        counts.ended += 1;
        true
    }

    /// A put with a chance that is a half where so many are held, and none at twice that.
    fn begin(&mut self, worker: u32, held: u32) {
        let put = self.rng.below(2 * held) >= self.held;
        let (words, fields) = (&mut self.words, &mut self.fields);
        let number = match put {
            true => begin_put_into(words, worker, 1, fields),
            false => begin_take_into(words, worker, fields),
        };
        assert!(number == MOVING, "answered {number}");
    }

    fn next_busy(&mut self) -> u32 {
        let workers = self.settings.workers;
        loop {
            self.turn = match self.order {
                Order::RoundRobin => (self.turn + 1) % workers,
                Order::AtRandom => self.rng.below(workers),
            };
            if !self.is_idle(self.turn) {
                return self.turn;
            }
        }
    }

    fn worker(&self, worker: u32) -> &[u32] {
        let at = self.settings.workers_at() + WORKER_WORDS * worker as usize;
        &self.words[at..at + WORKER_WORDS]
    }

    fn is_idle(&self, worker: u32) -> bool {
        self.worker(worker)[PHASE] == 0
    }

    fn failed_commits(&self) -> u32 {
        let workers = 0..self.settings.workers;
        workers
            .map(|worker| self.worker(worker)[FAILED_COMMITS])
            .sum()
    }

    /// All end what they are about; then worker 0 alone, which first puts as many as should
    /// be held, or as there is room for.
    fn drain(mut self) -> Ended {
        for worker in 0..self.settings.workers {
            while !self.is_idle(worker) {
                self.step(worker, &mut Counts::default());
            }
        }
        let mut counts = Counts::default();
        while self.held < HELD_AT_THE_END && counts.fulls == 0 {
            let number = begin_put_into(&mut self.words, 0, 1, &mut self.fields);
            assert!(number == MOVING, "answered {number}");
            while !self.step(0, &mut counts) {}
        }
        let mut counts = Counts::default();
        let mut steps_of_takes = 0;
        loop {
            let number = begin_take_into(&mut self.words, 0, &mut self.fields);
            assert!(number == MOVING, "answered {number}");
            let (takes, mut steps) = (counts.takes, 1);
            while !self.step(0, &mut counts) {
                steps += 1;
            }
            if counts.takes == takes {
                return Ended {
                    parts: self.parts,
                    steps_of_a_take: f64::from(steps_of_takes) / takes as f64,
                    steps_of_the_empty: steps,
                };
            }
            steps_of_takes += steps;
        }
    }
}
