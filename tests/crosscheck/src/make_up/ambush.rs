//! A scheduler against windows, in acts: a few reserve workers bring the pool
//! to a level; the others come to a stage of puts or of takes and wait there
//! with what they have seen; the reserve brings the pool to another level; the
//! waiting ones go on, one after the other; then anyone, or one alone, goes on.

use super::workers::Workers;
use crate::rng::Rng;
use second::phase::{Side, Stage};

#[derive(Clone, Copy, PartialEq, Eq)]
enum Act {
    Prepare,
    Gather,
    Turn,
    Release,
    Last,
}

/// In which order the waiting ones go on.
#[derive(Clone, Copy)]
enum Order {
    AsTheyCame,
    SeenWindowsUp,
    SeenWindowsDown,
}

pub struct Ambush {
    side: Side,
    stage: Stage,
    order: Order,
    /// A released worker goes on to its answer, or for one step only.
    to_the_end: bool,
    /// They go on when a stack's window has come back to one they have seen.
    await_window: bool,
    act: Act,
    left: u32,
    /// Workers below this number never wait.
    reserve: u32,
    /// How many percent of those who come to the stage wait: with few, they
    /// come there at different windows.
    wait_percent: u32,
    /// Only workers at this sub wait, if it is some.
    sub: Option<u32>,
    /// Who goes on at last: the workers below this number.
    last_ones: u32,
    waiting: Vec<u32>,
    put_percent: u32,
}

impl Ambush {
    pub fn new(rng: &mut Rng, workers: &Workers, stage: Stage) -> Ambush {
        let side = rng.pick(&[Side::Put, Side::Take]);
        // A shift that still fits may bring the next one's window about, if
        // those who wait have come there at many windows.
        let waits: &[u32] = match stage {
            Stage::Shift => &[20, 40],
            _ => &[10, 30, 90],
        };
        let one_by_one = match side {
            Side::Put => Order::SeenWindowsUp,
            Side::Take => Order::SeenWindowsDown,
        };
        let mut ambush = Ambush {
            side,
            stage,
            order: rng.pick(&[Order::AsTheyCame, one_by_one]),
            to_the_end: stage != Stage::Shift && rng.chance(60),
            await_window: rng.chance(50),
            act: Act::Last,
            left: 0,
            reserve: rng.between(1, 3).min(workers.number()),
            wait_percent: rng.pick(waits),
            sub: rng.pick(&[None, Some(0)]),
            last_ones: rng.pick(&[1, 1, workers.number()]),
            waiting: Vec::new(),
            put_percent: 0,
        };
        ambush.next_act(rng, workers);
        ambush
    }

    /// The next worker, and how many percent of begins are puts.
    pub fn next(&mut self, rng: &mut Rng, workers: &Workers) -> (u32, u32) {
        let over = match self.act {
            Act::Release => self.waiting.is_empty(),
            Act::Turn => self.await_window && self.window_came_back(workers),
            _ => false,
        };
        if self.left == 0 || over {
            self.next_act(rng, workers);
        }
        self.left -= 1;
        let worker = match self.act {
            Act::Prepare | Act::Turn => rng.below(self.reserve),
            Act::Gather => self.next_to_gather(rng, workers),
            Act::Release => self.next_released(rng, workers),
            Act::Last => rng.below(self.last_ones),
        };
        (worker, self.put_percent)
    }

    fn next_act(&mut self, rng: &mut Rng, workers: &Workers) {
        // About as many calls as fill the pool or empty it.
        let level = 6 * workers.settings.width * workers.settings.rows;
        let (same, other) = match self.side {
            Side::Put => (100, 0),
            Side::Take => (0, 100),
        };
        (self.act, self.put_percent, self.left) = match self.act {
            Act::Last => (
                Act::Prepare,
                rng.pick(&[0, 100, 100]),
                rng.between(1, level),
            ),
            Act::Prepare => {
                let all = workers.number() * workers.settings.rows;
                let gathering = rng.pick(&[12 * workers.number(), level, 2 * all]);
                (Act::Gather, same, gathering)
            }
            Act::Gather => (Act::Turn, other, rng.between(1, level)),
            Act::Turn => {
                self.line_up(workers);
                (Act::Release, other, u32::MAX)
            }
            Act::Release => (Act::Last, rng.pick(&[0, 0, 50, 100]), rng.between(1, level)),
        };
    }

    fn next_to_gather(&mut self, rng: &mut Rng, workers: &Workers) -> u32 {
        for _ in 0..workers.number() {
            let worker = rng.below(workers.number());
            if self.waiting.contains(&worker) {
                continue;
            }
            let at_sub = self.sub.is_none_or(|sub| workers.index(worker) == sub);
            let there = workers.stage(worker) == Some((self.side, self.stage)) && at_sub;
            if worker >= self.reserve && there && rng.chance(self.wait_percent) {
                self.waiting.push(worker);
            } else {
                return worker;
            }
        }
        rng.below(self.reserve)
    }

    fn window_came_back(&self, workers: &Workers) -> bool {
        let seen = self.waiting.iter().map(|w| workers.seen_window(*w));
        let outermost = match self.side {
            Side::Put => seen.min(),
            Side::Take => seen.max(),
        };
        outermost.is_some() && outermost == workers.stack_window()
    }

    fn line_up(&mut self, workers: &Workers) {
        match self.order {
            Order::AsTheyCame => {}
            Order::SeenWindowsUp => self.waiting.sort_by_key(|w| workers.seen_window(*w)),
            Order::SeenWindowsDown => {
                self.waiting
                    .sort_by_key(|w| std::cmp::Reverse(workers.seen_window(*w)));
            }
        }
    }

    fn next_released(&mut self, rng: &mut Rng, workers: &Workers) -> u32 {
        while let Some(worker) = self.waiting.first().copied() {
            let done = workers.is_idle(worker);
            if done || !self.to_the_end {
                self.waiting.remove(0);
            }
            if !done {
                return worker;
            }
        }
        rng.below(workers.number())
    }
}
